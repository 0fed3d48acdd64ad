CREATE TABLE orders (
    id BIGINT PRIMARY KEY,
    day TEXT NOT NULL,
    customer TEXT NOT NULL,
    cents BIGINT NOT NULL
);
