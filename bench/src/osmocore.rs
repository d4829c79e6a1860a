//! The two functions of libosmocore that answer what the library answers (osmocom/gsm/gsm_utils.h
//! and gsm0502.h). They check nothing, so they are only called with right inputs.

#[repr(C)]
#[derive(Default)]
pub struct GsmTime {
    pub frame: u32,
    pub t1: u16,
    pub t2: u8,
    pub t3: u8,
    pub tc: u8,
}

extern "C" {
    fn gsm_fn2gsmtime(time: *mut GsmTime, frame: u32);
    fn gsm0502_hop_seq_gen(t: *const GsmTime, hsn: u8, maio: u8, n: usize, ma: *const u16) -> u16;
}

pub fn split(frame: u32) -> GsmTime {
    let mut time = GsmTime::default();
    unsafe { gsm_fn2gsmtime(&mut time, frame) };
    time
}

/// `ma` is the mobile allocation as a list of ARFCNs.
pub fn hop(ma: &[u16], hsn: u32, maio: u32, frame: u32) -> u32 {
    let time = split(frame);
    unsafe { gsm0502_hop_seq_gen(&time, hsn as u8, maio as u8, ma.len(), ma.as_ptr()) }.into()
}
