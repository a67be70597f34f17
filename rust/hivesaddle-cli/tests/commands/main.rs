//! The commands, run as a person runs them.

#[cfg(unix)]
mod analyst;
mod devices;
mod folder;
#[cfg(unix)]
mod formats;
mod help;
mod input;
#[cfg(unix)]
mod output;
mod parts;
mod readme;
mod slow;
mod stored;
#[cfg(unix)]
mod terminal;
