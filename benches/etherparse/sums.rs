pub struct AddSlice;
impl Timed for AddSlice {
    #[inline(always)]
    fn call(packet: &[u8], _turn: u16) -> u64 {
        // `to_be` is what each caller of `etherparse` does with the answer
        u64::from(ep::checksum::Sum16BitWords::new().add_slice(packet).ones_complement().to_be())
    }
}

walks! { add_slice = AddSlice; }

#[inline(never)]
pub unsafe extern "C" fn call_add_slice(bytes: *const u8, len: usize) -> u16 {
    let bytes = unsafe { std::slice::from_raw_parts(bytes, len) };
    ep::checksum::Sum16BitWords::new().add_slice(bytes).ones_complement().to_be()
}
