//! The comparison's films, and its rules, which say what lies outside the domain.

pub(crate) use crate::call;

#[path = "../comparison/containers/answer.rs"]
pub mod answer;
#[path = "../comparison/containers/case.rs"]
pub mod case;
#[path = "../comparison/containers/damage.rs"]
pub mod damage;
#[path = "../comparison/containers/domain.rs"]
pub mod domain;
#[path = "../comparison/containers/film.rs"]
pub mod film;
#[path = "../comparison/containers/generate.rs"]
pub mod generate;
#[path = "../comparison/containers/header_tables.rs"]
pub mod header_tables;
#[path = "../comparison/containers/hostile.rs"]
pub mod hostile;
#[path = "../comparison/containers/mistakes.rs"]
pub mod mistakes;
#[path = "../comparison/containers/rules.rs"]
pub mod rules;
#[path = "../comparison/containers/samples.rs"]
pub mod samples;
#[path = "../comparison/containers/table_rules.rs"]
pub mod table_rules;
