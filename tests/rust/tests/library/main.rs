//! The proved library against the oracle: answers, and every lent byte afterwards.
//! The features `monitor`, `model`, `read`, `verdict` and `layout` switch the tests on; `library` is all of them.

#[cfg(feature = "monitor")]
mod calls;
#[cfg(feature = "monitor")]
mod classes;
#[cfg(feature = "layout")]
mod layout;
#[cfg(feature = "linked")]
mod lent;
#[cfg(feature = "model")]
mod model;
#[cfg(feature = "monitor")]
mod monitor;
#[cfg(all(feature = "read", feature = "verdict", feature = "layout"))]
mod prints;
#[cfg(feature = "read")]
mod read;
#[cfg(feature = "library")]
mod smoke;
#[cfg(feature = "library")]
mod stack;
#[cfg(feature = "monitor")]
mod traces;
#[cfg(feature = "monitor")]
mod unequal;
#[cfg(feature = "verdict")]
mod verdict;
#[cfg(all(feature = "read", feature = "verdict"))]
mod written_out;
