// Other libraries on the same work, where they are installed: what a user would take instead. Their bits are not ours, and
// they strike nothing.

use crate::work::{decimator_of_ours, fm_of_ours, from_floats, in_place, nco_of_ours, room, Work};
use std::hint::black_box;

/// Factor and taps of the decimators that are measured.
const DECIMATORS: [(&str, usize, usize); 3] = [
    ("Decimator, factor 10, 121 taps", 10, 121),
    ("Decimator, factor 64, 769 taps", 64, 769),
    ("Decimator, factor 2, 25 taps", 2, 25),
];

#[cfg(liquid)]
pub fn liquid() -> Vec<Work> {
    use std::ffi::{c_int, c_uint, c_void};
    type Object = *mut c_void;
    #[link(name = "liquid")]
    extern "C" {
        fn firdecim_rrrf_create(factor: c_uint, taps: *const f32, n: c_uint) -> Object;
        fn firdecim_rrrf_execute_block(q: Object, x: *const f32, outputs: c_uint, y: *mut f32) -> c_int;
        fn freqdem_create(kf: f32) -> Object;
        fn freqdem_demodulate_block(q: Object, x: *const f32, n: c_uint, y: *mut f32) -> c_int;
        fn nco_crcf_create(kind: c_uint) -> Object;
        fn nco_crcf_set_frequency(q: Object, radians: f32) -> c_int;
        fn nco_crcf_mix_block_down(q: Object, x: *const f32, y: *mut f32, n: c_uint) -> c_int;
    }
    let mut all: Vec<Work> = DECIMATORS
        .iter()
        .map(|&(name, factor, taps)| {
            let (h, mut y) = (vec![1.0 / taps as f32; taps], room());
            let q = unsafe { firdecim_rrrf_create(factor as c_uint, h.as_ptr(), taps as c_uint) };
            let theirs = from_floats(move |x| unsafe {
                firdecim_rrrf_execute_block(q, x.as_ptr(), (x.len() / factor) as c_uint, black_box(&mut y).as_mut_ptr());
            });
            Work { name, theirs, ours: decimator_of_ours(factor, taps) }
        })
        .collect();
    let (q, mut y) = (unsafe { freqdem_create(0.5) }, room());
    let theirs = from_floats(move |x| unsafe {
        freqdem_demodulate_block(q, x.as_ptr(), (x.len() / 2) as c_uint, black_box(&mut y).as_mut_ptr());
    });
    all.push(Work { name: "FM", theirs, ours: fm_of_ours() });
    // Kind 1 is the one that takes sine and cosine at full width.
    let q = unsafe { nco_crcf_create(1) };
    unsafe { nco_crcf_set_frequency(q, 0.26) };
    let theirs = in_place(move |x| unsafe {
        nco_crcf_mix_block_down(q, x.as_ptr(), x.as_mut_ptr(), (x.len() / 2) as c_uint);
    });
    all.push(Work { name: "NCO mix", theirs, ours: nco_of_ours() });
    all
}

#[cfg(volk)]
pub fn volk() -> Vec<Work> {
    use std::ffi::c_uint;
    #[repr(C)]
    #[derive(Clone, Copy)]
    struct Complex(f32, f32);
    // VOLK's names are pointers to the function that it chose for this processor.
    #[link(name = "volk")]
    extern "C" {
        static volk_32f_x2_dot_prod_32f: unsafe extern "C" fn(*mut f32, *const f32, *const f32, c_uint);
        static volk_32fc_s32fc_x2_rotator_32fc: unsafe extern "C" fn(*mut f32, *const f32, Complex, *mut Complex, c_uint);
    }
    let mut all: Vec<Work> = DECIMATORS
        .iter()
        .map(|&(name, factor, taps)| {
            // The history stands before the block, as a user of a dot product has it.
            let (h, mut y, mut stream) = (vec![1.0 / taps as f32; taps], room(), vec![0.0; taps - 1]);
            let theirs = from_floats(move |x| {
                stream.truncate(taps - 1);
                stream.extend_from_slice(x);
                let outputs = x.len() / factor;
                for (k, out) in black_box(&mut y)[..outputs].iter_mut().enumerate() {
                    unsafe { volk_32f_x2_dot_prod_32f(out, stream[k * factor..].as_ptr(), h.as_ptr(), taps as c_uint) };
                }
                let n = stream.len();
                stream.copy_within(n - (taps - 1).., 0);
            });
            Work { name, theirs, ours: decimator_of_ours(factor, taps) }
        })
        .collect();
    let mut phase = Complex(1.0, 0.0);
    let turn = Complex(0.26f32.cos(), -0.26f32.sin());
    let theirs = in_place(move |x| unsafe {
        volk_32fc_s32fc_x2_rotator_32fc(x.as_mut_ptr(), x.as_ptr(), turn, &mut phase, (x.len() / 2) as c_uint);
    });
    all.push(Work { name: "NCO mix", theirs, ours: nco_of_ours() });
    all
}
