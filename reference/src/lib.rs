//! An independent implementation of the column checker of docs/FORMAT.md.
//!
//! It is a yardstick: it was written from the specification, in the plainest
//! way (every permitted configuration is tried one after another), and the
//! proved product is compared with it. See README.md.

pub mod cases;
pub mod check;
pub mod configure;
pub mod expression;
pub mod file;
pub mod filled;
pub mod find;
pub mod form;
pub mod generate;
pub mod page;
pub mod plain;
pub mod random;
pub mod reading;
pub mod refusal;
pub mod schema;
pub mod small;
pub mod tables;
pub mod typing;
pub mod vectors;

pub use check::check;
pub use configure::configure;
pub use find::find;
pub use page::page;
pub use reading::Reading;
pub use refusal::Refusal;
pub use tables::Tables;
