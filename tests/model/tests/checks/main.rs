//! Checks of the model: the examples of the documents, the rulings, and what
//! must hold of every label and table.

mod book;
mod calendar;
mod examples;
mod layout;
mod meaning;
mod properties;
mod reals;
mod rows;
mod rulings;
mod sessions;
mod sessions_listed;
mod support;
mod vectors;
mod weekdays;
mod zones;
