//! libavcodec's Dirac decoder, where it was found when this crate was built.

/// libavcodec's decoder with a picture of its own.
pub struct Libavcodec {
    #[cfg(libavcodec)]
    decoder: std::ptr::NonNull<foreign::BenchDecoder>,
    #[cfg(not(libavcodec))]
    never: std::convert::Infallible,
}

/// The declarations of `libavcodec.c`.
#[cfg(libavcodec)]
mod foreign {
    use std::ffi::{c_int, c_uint};

    /// A decoder; C alone looks inside.
    #[repr(C)]
    pub struct BenchDecoder {
        inside: [u8; 0],
    }

    extern "C" {
        pub fn bench_open(
            bytes: *const u8,
            length: usize,
            number_offset: usize,
            simd: c_int,
        ) -> *mut BenchDecoder;
        pub fn bench_close(decoder: *mut BenchDecoder);
        pub fn bench_decode(decoder: *mut BenchDecoder) -> c_int;
        pub fn bench_samples(
            decoder: *const BenchDecoder,
            component: c_int,
            width: c_int,
            height: c_int,
            samples: *mut i32,
        ) -> c_int;
        pub fn bench_version() -> c_uint;
    }
}

#[cfg(libavcodec)]
impl Libavcodec {
    /// The library's version, if it is installed.
    pub fn version() -> Option<String> {
        // SAFETY: it takes nothing.
        let version = unsafe { foreign::bench_version() };
        let (major, minor, micro) = (version >> 16, version >> 8 & 0xFF, version & 0xFF);
        Some(format!("{major}.{minor}.{micro}"))
    }

    /// A decoder of a packet with a sequence header and a picture whose number stands at an offset; with
    /// or without SIMD code. None where libavcodec is not installed.
    pub fn new(packet: &[u8], number_offset: usize, simd: bool) -> Option<Libavcodec> {
        // SAFETY: the pointer and the length are of one slice, which the decoder copies.
        let decoder = unsafe {
            foreign::bench_open(packet.as_ptr(), packet.len(), number_offset, simd.into())
        };
        let decoder = std::ptr::NonNull::new(decoder).expect("libavcodec has a Dirac decoder");
        Some(Libavcodec { decoder })
    }

    /// Decodes the picture once more.
    pub fn decode(&mut self) {
        // SAFETY: the decoder is open.
        let error = unsafe { foreign::bench_decode(self.decoder.as_ptr()) };
        assert_eq!(error, 0, "libavcodec failed");
    }

    /// The last picture's samples of a component as libavcodec gives them, 8 bits each.
    pub fn samples(&self, component: usize, width: u32, height: u32) -> Vec<i32> {
        let mut samples = vec![0; width as usize * height as usize];
        // SAFETY: the decoder is open, and the samples have room for a picture of that size.
        let error = unsafe {
            foreign::bench_samples(
                self.decoder.as_ptr(),
                component as i32,
                width as i32,
                height as i32,
                samples.as_mut_ptr(),
            )
        };
        assert_eq!(error, 0, "libavcodec's picture has another size or format");
        samples
    }
}

#[cfg(libavcodec)]
impl Drop for Libavcodec {
    fn drop(&mut self) {
        // SAFETY: the decoder is open, and nothing uses it from here on.
        unsafe { foreign::bench_close(self.decoder.as_ptr()) }
    }
}

#[cfg(not(libavcodec))]
impl Libavcodec {
    /// The library's version, if it is installed.
    pub fn version() -> Option<String> {
        None
    }

    /// None, since libavcodec is not installed.
    pub fn new(_packet: &[u8], _number_offset: usize, _simd: bool) -> Option<Libavcodec> {
        None
    }

    /// There is no decoder to decode with.
    pub fn decode(&mut self) {
        match self.never {}
    }

    /// There is no decoder to have samples.
    pub fn samples(&self, _component: usize, _width: u32, _height: u32) -> Vec<i32> {
        match self.never {}
    }
}
