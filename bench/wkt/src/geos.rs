//! GEOS's WKTReader and WKTWriter, through its C library.

use plans::plan::{Plan, Point, Polygon, Ring};
use std::ffi::{CStr, c_char, c_int, c_uint, c_void};
use std::ptr::NonNull;

/// What GEOS hands out by pointer; none where it fails.
type Handle = Option<NonNull<c_void>>;
type Given = NonNull<c_void>;

unsafe extern "C" {
    fn GEOS_init_r() -> Handle;
    fn GEOS_finish_r(context: Given);
    fn GEOSversion() -> *const c_char;
    fn GEOSWKTReader_create_r(context: Given) -> Handle;
    fn GEOSWKTReader_read_r(context: Given, reader: Given, text: *const c_char) -> Handle;
    fn GEOSWKTReader_destroy_r(context: Given, reader: Given);
    fn GEOSWKTWriter_create_r(context: Given) -> Handle;
    fn GEOSWKTWriter_setTrim_r(context: Given, writer: Given, trim: c_char);
    fn GEOSWKTWriter_setRoundingPrecision_r(context: Given, writer: Given, digits: c_int);
    fn GEOSWKTWriter_write_r(context: Given, writer: Given, geometry: Given) -> *mut c_char;
    fn GEOSWKTWriter_destroy_r(context: Given, writer: Given);
    fn GEOSFree_r(context: Given, text: *mut c_void);
    fn GEOSGeom_destroy_r(context: Given, geometry: Given);
    fn GEOSisEmpty_r(context: Given, geometry: Given) -> c_char;
    fn GEOSGetNumGeometries_r(context: Given, geometry: Given) -> c_int;
    fn GEOSGetGeometryN_r(context: Given, geometry: Given, number: c_int) -> Handle;
    fn GEOSGetExteriorRing_r(context: Given, polygon: Given) -> Handle;
    fn GEOSGetNumInteriorRings_r(context: Given, polygon: Given) -> c_int;
    fn GEOSGetInteriorRingN_r(context: Given, polygon: Given, number: c_int) -> Handle;
    fn GEOSGeom_getCoordSeq_r(context: Given, ring: Given) -> Handle;
    fn GEOSCoordSeq_getSize_r(context: Given, positions: Given, size: *mut c_uint) -> c_int;
    fn GEOSCoordSeq_getXY_r(
        context: Given,
        positions: Given,
        number: c_uint,
        x: *mut f64,
        y: *mut f64,
    ) -> c_int;
}

/// A reader and a writer, the latter of whole numbers.
pub struct Geos {
    context: Given,
    reader: Given,
    writer: Given,
}

impl Geos {
    pub fn new() -> Geos {
        // SAFETY: the reader and the writer are of the context, and all three are kept to the end.
        unsafe {
            let context = GEOS_init_r().expect("GEOS starts");
            let reader = GEOSWKTReader_create_r(context).expect("GEOS has a reader");
            let writer = GEOSWKTWriter_create_r(context).expect("GEOS has a writer");
            GEOSWKTWriter_setTrim_r(context, writer, 1);
            GEOSWKTWriter_setRoundingPrecision_r(context, writer, 0);
            Geos {
                context,
                reader,
                writer,
            }
        }
    }

    pub fn version() -> String {
        // SAFETY: it is a text of GEOS's own that stays.
        let version = unsafe { CStr::from_ptr(GEOSversion()) };
        version.to_string_lossy().into_owned()
    }

    /// The geometry of a text, if GEOS takes it.
    pub fn read(&self, text: &CStr) -> Option<Geometry<'_>> {
        // SAFETY: context and reader are GEOS's, and the text ends with byte 0.
        let raw = unsafe { GEOSWKTReader_read_r(self.context, self.reader, text.as_ptr()) }?;
        Some(Geometry { geos: self, raw })
    }
}

impl Drop for Geos {
    fn drop(&mut self) {
        // SAFETY: nothing of the context is left: geometries and texts borrow it.
        unsafe {
            GEOSWKTReader_destroy_r(self.context, self.reader);
            GEOSWKTWriter_destroy_r(self.context, self.writer);
            GEOS_finish_r(self.context);
        }
    }
}

/// A geometry that GEOS made.
pub struct Geometry<'a> {
    geos: &'a Geos,
    raw: Given,
}

impl Drop for Geometry<'_> {
    fn drop(&mut self) {
        // SAFETY: it is GEOS's, and freed once.
        unsafe { GEOSGeom_destroy_r(self.geos.context, self.raw) };
    }
}

/// A text that GEOS wrote.
pub struct Written<'a> {
    geos: &'a Geos,
    raw: NonNull<c_char>,
}

impl Written<'_> {
    pub fn bytes(&self) -> &[u8] {
        // SAFETY: GEOS ends it with byte 0, and it stays until it is dropped.
        unsafe { CStr::from_ptr(self.raw.as_ptr()) }.to_bytes()
    }
}

impl Drop for Written<'_> {
    fn drop(&mut self) {
        // SAFETY: it is GEOS's, and freed once.
        unsafe { GEOSFree_r(self.geos.context, self.raw.as_ptr().cast()) };
    }
}

impl<'a> Geometry<'a> {
    /// The geometry as text.
    pub fn write(&self) -> Written<'a> {
        let Geos {
            context, writer, ..
        } = *self.geos;
        // SAFETY: all three are GEOS's.
        let raw = unsafe { GEOSWKTWriter_write_r(context, writer, self.raw) };
        Written {
            geos: self.geos,
            raw: NonNull::new(raw).expect("GEOS writes"),
        }
    }

    /// The list of its polygons, the last position of each ring left out; empty ones are no polygon.
    pub fn plan(&self) -> Plan {
        // SAFETY: the geometry is a POLYGON or a MULTIPOLYGON, whose parts are POLYGONs and stay as long as it does.
        let polygons: Vec<Polygon> = unsafe {
            let context = self.geos.context;
            let count = GEOSGetNumGeometries_r(context, self.raw);
            let parts = (0..count).filter_map(|k| GEOSGetGeometryN_r(context, self.raw, k));
            let filled = parts.filter(|&part| GEOSisEmpty_r(context, part) == 0);
            filled.map(|part| polygon(context, part)).collect()
        };
        Plan::list(&polygons)
    }
}

/// The rings of a polygon.
///
/// # Safety
///
/// It is a POLYGON of the context.
unsafe fn polygon(context: Given, polygon: Given) -> Polygon {
    unsafe {
        let outer = GEOSGetExteriorRing_r(context, polygon);
        let holes = 0..GEOSGetNumInteriorRings_r(context, polygon);
        let holes = holes.map(|k| GEOSGetInteriorRingN_r(context, polygon, k));
        let rings = [outer].into_iter().chain(holes).flatten();
        rings.map(|raw| ring(context, raw)).collect()
    }
}

/// The corners of a ring.
///
/// # Safety
///
/// It is a LINEARRING of the context.
unsafe fn ring(context: Given, ring: Given) -> Ring {
    unsafe {
        let positions = GEOSGeom_getCoordSeq_r(context, ring).expect("a ring has positions");
        let mut size = 0;
        GEOSCoordSeq_getSize_r(context, positions, &mut size);
        let position = |k| {
            let (mut x, mut y) = (f64::NAN, f64::NAN);
            GEOSCoordSeq_getXY_r(context, positions, k, &mut x, &mut y);
            corner(x, y)
        };
        (0..size.saturating_sub(1)).map(position).collect()
    }
}

/// A corner of whole numbers that 64 bits hold.
fn corner(x: f64, y: f64) -> Point {
    let whole = |c: f64| {
        let number = c as i64;
        assert!(number as f64 == c, "{c} is no number of 64 bits");
        number
    };
    (whole(x), whole(y))
}
