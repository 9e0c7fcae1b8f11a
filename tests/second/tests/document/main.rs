//! Document 01 line by line, and of document 02 what has landed.

mod carrying;
mod chain;
mod closures;
mod counts;
mod examples;
mod firm;
mod mistakes;
mod order;
mod plain_numbers;
mod quiet;
mod reasons;
mod records;
mod refusals;
mod returning;
mod round_trips;
mod shop;
mod sleep;
mod written_tables;
