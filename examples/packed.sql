CREATE EXTERNAL TABLE orders (id BIGINT, customer VARCHAR, item VARCHAR, qty BIGINT, note VARCHAR) STORED AS CSV LOCATION 'examples/orders.csv';
SELECT many.item,
       CASE WHEN many.qty >= 4 THEN 'crate' WHEN many.qty = 3 THEN 'box' ELSE 'bag' END AS packed
FROM (SELECT item, qty FROM orders WHERE qty > 1) AS many
WHERE many.item IN ('Mug', 'Tea, green');
