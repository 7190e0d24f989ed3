//! The model against documents 01 and 02: worked cases, and laws on random runs.

mod causes;
mod closes;
mod dates;
mod demand_3;
mod events;
mod fitness;
mod generated;
mod journals;
mod limits;
mod money;
mod pencil;
mod rolling;
mod standings;
mod terms;
mod unpaid;
mod worked_example;
