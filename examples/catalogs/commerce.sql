CREATE TABLE corder (customer_id BIGINT UNSIGNED NOT NULL, order_id BIGINT UNSIGNED NOT NULL, sku VARCHAR(64), PRIMARY KEY (customer_id, order_id));
