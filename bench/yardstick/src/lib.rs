//! A plain program of the link's specification, with std alone: packets, both tables of messages, the reader's and the controller's
//! machine, and a simulated line. The machines move nothing but what is sent or kept, and allocate when they are made, never in a call.

pub mod bytes;
pub mod commands;
pub mod controller;
pub mod packets;
pub mod reader;
pub mod replies;
pub mod script;
pub mod session;
pub mod work;
