//! The settings of a reader that several tests begin with.
use osdp::{DeviceConfig, PdId, Product};
use std::time::Duration;

/// A reader at address 5, with room for four events.
pub const DEVICE: DeviceConfig<'static> = DeviceConfig {
    address: 5,
    capacity: 4,
    gap: Duration::from_millis(20),
    clock_limit: Duration::from_millis(1000),
    id: PdId {
        serial: 1,
        product: Product {
            vendor: [1, 2, 3],
            model: 1,
            version: 1,
            firmware_major: 1,
            firmware_minor: 0,
            firmware_build: 0,
        },
    },
    capabilities: &[],
};
