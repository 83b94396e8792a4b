//! The links of the service: what passes on them is captured, and may be impaired.

pub mod capture;
pub mod firewall;
pub mod forged;
pub mod impairment;
pub mod packet;
pub mod relay;
