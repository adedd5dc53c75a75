CREATE TABLE corder_order_idx (order_id BIGINT UNSIGNED NOT NULL, keyspace_id VARBINARY(16), PRIMARY KEY (order_id));
