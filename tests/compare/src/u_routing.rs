//! The u-routing sources as they are, and once more below `home`; build.rs lays them into OUT_DIR.

#![allow(dead_code, unused_imports)]

include!(concat!(env!("OUT_DIR"), "/u_routing/lib.rs"));
