//! The work on maps of other libraries, where these are installed: a file of C or C++ for each, with the same functions.

use crate::keys::Work;

macro_rules! peer {
    ($name:ident) => {
        #[cfg($name)]
        mod $name {
            use crate::keys::Work;

            unsafe extern "C" {
                #[link_name = concat!(stringify!($name), "_work")]
                fn work_on(
                    keys: *const u8,
                    ends: *const u64,
                    asked: *const u8,
                    asked_ends: *const u64,
                    count: usize,
                    prefixes: *const u8,
                    prefix_ends: *const u64,
                    prefix_count: usize,
                ) -> usize;
            }

            pub fn run(work: &Work) -> bool {
                let (keys, asked, prefixes) = (&work.keys, &work.asked, &work.prefixes);
                let done = unsafe {
                    work_on(
                        keys.bytes.as_ptr(),
                        keys.ends.as_ptr(),
                        asked.bytes.as_ptr(),
                        asked.ends.as_ptr(),
                        keys.count(),
                        prefixes.bytes.as_ptr(),
                        prefixes.ends.as_ptr(),
                        prefixes.count(),
                    )
                };
                done == 2 * keys.count()
            }
        }
    };
}

peer!(judy);
peer!(hat);
peer!(absl);

/// Works on a map, if there is such a one here.
pub fn run(map: &str, _work: &Work) -> bool {
    match map {
        #[cfg(judy)]
        "judy" => judy::run(_work),
        #[cfg(hat)]
        "hat" => hat::run(_work),
        #[cfg(absl)]
        "absl" => absl::run(_work),
        _ => false,
    }
}
