//! The original space check beside a model of its rules and, where linked, beside the proved library.
//!
//! The command `compare` runs them; `bench` times them, and takes from here how containers are laid out and built.

mod address_block;
pub mod answer;
mod boundary;
pub mod build;
mod container;
mod coverage;
mod damage;
mod disagreement;
mod draft;
pub mod fields;
mod fill;
pub mod fletcher;
pub mod free_list;
mod image;
mod judge;
pub mod library;
mod list;
pub mod listing;
mod messages;
pub mod mkapfs;
mod model;
pub mod nodes;
pub mod oracle;
mod outside;
mod places;
pub mod real;
mod recipes;
pub mod rng;
mod role;
pub mod run;
pub mod sample;
mod seeds;
mod shape;
mod shrink;
mod survey;
pub mod text;
pub mod verify;
mod volume;
pub mod worker;
