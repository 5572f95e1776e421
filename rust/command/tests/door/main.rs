//! The command `rehearse` with stand-ins for what it runs: how it reads its arguments, hexadecimal digits and files,
//! what it feeds the proved programs, what it makes of their answers, and what it hands on to the command over the
//! proved calls. What needs the script, another terminal or a build is tried by tests/front_door.
mod arguments;
mod handing;
mod hexadecimal;
mod inputs;
mod limits;
mod places;
mod root;
mod saving;
mod sheets;
