//! The exports of both versions (include/findspot.h), declared once and reached in one way: by pointers.

/// The numbers that go with the tables of a prepared plan.
#[repr(C)]
#[derive(Clone, Copy, Debug, Default, PartialEq, Eq)]
pub struct State {
    /// 0 a list, 1 a tree.
    pub kind: usize,
    /// 1 where a corner is out of range, else 0.
    pub out_of_range: usize,
    pub corners: usize,
    pub rings: usize,
    pub polygons: usize,
    pub undo_depth: usize,
}

/// What preparing answers: the refusal number or 0, the table that refusal 11 names or 0, the number of nodes, and the state.
#[repr(C)]
#[derive(Clone, Copy, Debug, PartialEq, Eq)]
pub struct Preparing {
    pub refusal: usize,
    pub table: usize,
    pub nodes: usize,
    pub state: State,
}

/// What a correction answers: the refusal number or 0, and the state from then on.
#[repr(C)]
#[derive(Clone, Copy, Debug, PartialEq, Eq)]
pub struct Correction {
    pub refusal: usize,
    pub state: State,
}

/// How many copies of each version are linked, at other places in memory each. build.rs makes as many.
pub const COPIES: usize = 7;

/// Declares the exports, those of one type together: the types of pointers to them, the struct of such pointers, and one struct for each copy of each
/// version. In the names of its exports the version and the copy's number stand first.
macro_rules! exports {
    ($signatures:tt) => {
        exports!(@types $signatures);

        /// The exports of the earlier version, copy by copy.
        pub static BEFORE: [Exports; COPIES] = exports!(@copies "before_" [0 1 2 3 4 5 6] $signatures);

        /// The exports of the later version, copy by copy.
        pub static AFTER: [Exports; COPIES] = exports!(@copies "after_" [0 1 2 3 4 5 6] $signatures);
    };
    (@types {$(type $type:ident = fn $arguments:tt -> $answer:ty: $($name:ident),+;)*}) => {
        $(pub type $type = unsafe extern "C" fn $arguments -> $answer;)*

        /// The exports of one copy of one version.
        pub struct Exports {
            $($(pub $name: $type,)+)*
        }
    };
    (@copies $version:literal [$($number:literal)*] $signatures:tt) => {
        [$(exports!(@copy $version $number $signatures)),*]
    };
    (@copy $version:literal $number:literal
        {$(type $type:ident = fn $arguments:tt -> $answer:ty: $($name:ident),+;)*}) => {{
        unsafe extern "C" {
            $($(
                #[link_name = concat!($version, $number, "_", stringify!($name))]
                fn $name $arguments -> $answer;
            )+)*
        }
        Exports { $($($name,)+)* }
    }};
}

exports!({
    type NodeCount = fn(corners: usize) -> usize: findspot_node_count;

    type Prepare = fn(
        kind: usize,
        coordinates: *const i64,
        coordinates_length: usize,
        lengths: *const usize,
        lengths_length: usize,
        counts: *const usize,
        counts_length: usize,
        corners: *mut i64,
        corners_length: usize,
        rings: *mut usize,
        rings_length: usize,
        polygons: *mut usize,
        polygons_length: usize,
        boxes: *mut [i64; 4],
        boxes_length: usize,
        parts: *mut [usize; 3],
        parts_length: usize,
        edges: *mut usize,
        edges_length: usize,
    ) -> Preparing: findspot_prepare;

    type LookUp = fn(
        state: State,
        corners: *const i64,
        corners_length: usize,
        rings: *const usize,
        rings_length: usize,
        polygons: *const usize,
        polygons_length: usize,
        boxes: *const [i64; 4],
        boxes_length: usize,
        parts: *const [usize; 3],
        parts_length: usize,
        edges: *const usize,
        edges_length: usize,
        x: i64,
        y: i64,
    ) -> i64: findspot_locate, findspot_locate_doubled;

    type LookUpByRings = fn(
        state: State,
        corners: *const i64,
        corners_length: usize,
        rings: *const usize,
        rings_length: usize,
        polygons: *const usize,
        polygons_length: usize,
        x: i64,
        y: i64,
    ) -> i64: findspot_locate_by_rings, findspot_locate_doubled_by_rings;

    type Move = fn(
        state: State,
        corners: *mut i64,
        corners_length: usize,
        rings: *const usize,
        rings_length: usize,
        boxes: *mut [i64; 4],
        boxes_length: usize,
        parts: *const [usize; 3],
        parts_length: usize,
        edges: *const usize,
        edges_length: usize,
        undo: *mut [i64; 3],
        undo_length: usize,
        corner: usize,
        x: i64,
        y: i64,
    ) -> Correction: findspot_move;

    type Undo = fn(
        state: State,
        corners: *mut i64,
        corners_length: usize,
        rings: *const usize,
        rings_length: usize,
        boxes: *mut [i64; 4],
        boxes_length: usize,
        parts: *const [usize; 3],
        parts_length: usize,
        edges: *const usize,
        edges_length: usize,
        undo: *const [i64; 3],
        undo_length: usize,
    ) -> Correction: findspot_undo;
});
