//! Where the program made a call, as the debug library reports it.

#[cfg(feature = "debug-library")]
mod said {
    use crate::ffi;
    use crate::lock::Lock;
    use core::ffi::{c_int, CStr};
    use core::panic::Location;
    use std::ffi::CString;

    /// The names of files, as C reads them. They stay, since the library keeps them.
    static FILES: Lock<Vec<(&'static str, &'static CStr)>> = Lock::new(Vec::new());

    fn file(name: &'static str) -> Option<&'static CStr> {
        let mut files = FILES.lock();
        if let Some((_, file)) = files.iter().find(|(known, _)| *known == name) {
            return Some(file);
        }
        let file: &'static CStr = Box::leak(CString::new(name).ok()?.into_boxed_c_str());
        files.push((name, file));
        Some(file)
    }

    pub(super) fn at(place: &'static Location<'static>) {
        if let (Some(file), Ok(line)) = (file(place.file()), c_int::try_from(place.line())) {
            // SAFETY: the name ends with a zero, and stays.
            unsafe { ffi::ww_debug_line_(file.as_ptr(), line) }
        }
    }
}

/// Says it to the debug library, if that is linked: whatever the library reports of this thread next is of that call.
#[track_caller]
#[inline]
pub(crate) fn said() {
    #[cfg(feature = "debug-library")]
    said::at(core::panic::Location::caller());
}
