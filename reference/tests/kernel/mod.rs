//! The packet error code as the Linux kernel works it out in its
//! `drivers/i2c/i2c-core-smbus.c`, on 16 bits.

/// The polynomial with its highest power, at the top of 16 bits.
const POLY: u16 = 0x1070 << 3;

/// `crc8`
fn crc8(mut data: u16) -> u8 {
    for _ in 0..8 {
        if data & 0x8000 != 0 {
            data ^= POLY;
        }
        data <<= 1;
    }
    (data >> 8) as u8
}

/// `i2c_smbus_pec`
pub fn pec(mut crc: u8, bytes: &[u8]) -> u8 {
    for byte in bytes {
        crc = crc8(u16::from(crc ^ byte) << 8);
    }
    crc
}
