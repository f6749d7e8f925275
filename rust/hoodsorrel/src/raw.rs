//! The C functions, each as a call on slices. The one file with `unsafe`.
//!
//! A call that is lent `words` answers the number of words of its answer and stores them from
//! `words[0]` on, or nothing where `words` is shorter; or `-k` for refusal k, which stores nothing;
//! or [`NEEDS`] with the needed lengths from `words[0]` on.
//! The others answer a number itself, or `-k`. A float in a number, in words and in a lent `&mut [u32]` is
//! its bit pattern; an eye that is handed in is 0 for the left one and any other number for the right one, which is not
//! how records count them.

use std::slice;

pub use crate::scene::Given;

/// 12: the needed lengths are in the words.
pub const NEEDS: i64 = -12;

/// Top, bottom, left, right.
pub type Crop = [f32; 4];

/// The bit patterns of a float buffer.
pub fn bits_of(floats: &mut [f32]) -> &mut [u32] {
    // SAFETY: both have one size and one alignment, every bit pattern is one of each, and the slice is borrowed on.
    unsafe { slice::from_raw_parts_mut(floats.as_mut_ptr().cast(), floats.len()) }
}

/// A line declares a C function and makes the call of it: C NAME `as` NAME (ARGUMENTS). A slice crosses as its pointer
/// and its length, four numbers and a scene's numbers one by one.
macro_rules! calls {
    ($($symbol:ident as $name:ident($($arguments:tt)*);)*) => {
        $(calls! { @ $symbol $name [$($arguments)*,] [] [] [] })*
    };
    (@ $symbol:ident $name:ident [$x:ident: & [$of:ty], $($rest:tt)*]
        [$($given:tt)*] [$($declared:tt)*] [$($passed:tt)*]) => {
        calls! { @ $symbol $name [$($rest)*] [$($given)* $x: &[$of],]
            [$($declared)* _: *const $of, _: usize,] [$($passed)* $x.as_ptr(), $x.len(),] }
    };
    (@ $symbol:ident $name:ident [$x:ident: & mut [$of:ty], $($rest:tt)*]
        [$($given:tt)*] [$($declared:tt)*] [$($passed:tt)*]) => {
        calls! { @ $symbol $name [$($rest)*] [$($given)* $x: &mut [$of],]
            [$($declared)* _: *mut $of, _: usize,] [$($passed)* $x.as_mut_ptr(), $x.len(),] }
    };
    (@ $symbol:ident $name:ident [$x:ident: [$of:ident; 4], $($rest:tt)*]
        [$($given:tt)*] [$($declared:tt)*] [$($passed:tt)*]) => {
        calls! { @ $symbol $name [$($rest)*] [$($given)* $x: [$of; 4],]
            [$($declared)* _: $of, _: $of, _: $of, _: $of,] [$($passed)* $x[0], $x[1], $x[2], $x[3],] }
    };
    (@ $symbol:ident $name:ident [$x:ident: Given, $($rest:tt)*]
        [$($given:tt)*] [$($declared:tt)*] [$($passed:tt)*]) => {
        calls! { @ $symbol $name [$($rest)*] [$($given)* $x: Given,]
            [$($declared)* _: u32, _: u32, _: u32, _: f32, _: u32,]
            [$($passed)* $x.rings, $x.sectors, $x.cells, $x.radius, $x.face_width,] }
    };
    (@ $symbol:ident $name:ident [$x:ident: $kind:ident, $($rest:tt)*]
        [$($given:tt)*] [$($declared:tt)*] [$($passed:tt)*]) => {
        calls! { @ $symbol $name [$($rest)*] [$($given)* $x: $kind,] [$($declared)* _: $kind,] [$($passed)* $x,] }
    };
    (@ $symbol:ident $name:ident [] [$($given:tt)*] [$($declared:tt)*] [$($passed:tt)*]) => {
        #[allow(clippy::too_many_arguments)]
        pub fn $name($($given)*) -> i64 {
            unsafe extern "C" {
                fn $symbol($($declared)*) -> i64;
            }
            // SAFETY: each pointer comes with the length of the slice that it was taken from, and a function reads and
            // writes inside its slices alone.
            unsafe { $symbol($($passed)*) }
        }
    };
}

// Cursors, fields and box headers.
calls! {
    capi_byte_new as byte_new(words: &mut [u64]);
    capi_position as position(at: usize, words: &mut [u64]);
    capi_remaining as remaining(s: &[u8], at: usize, words: &mut [u64]);
    capi_seek as seek(s: &[u8], at: usize, to: usize, words: &mut [u64]);
    capi_skip as skip(s: &[u8], at: usize, n: usize, words: &mut [u64]);
    capi_u8 as u8(s: &[u8], at: usize, words: &mut [u64]);
    capi_u32 as u32(s: &[u8], at: usize, words: &mut [u64]);
    capi_bit_new as bit_new(byte_offset: usize, words: &mut [u64]);
    capi_align as align(bit: usize, words: &mut [u64]);
    capi_read as read(s: &[u8], bit: usize, width: u32, words: &mut [u64]);
    capi_read_two as read_two(s: &[u8], bit: usize, width: u32, words: &mut [u64]);
    capi_sum_fields as sum_fields(s: &[u8], width: u32, count: u64, words: &mut [u64]);
    capi_header as header(s: &[u8], at: usize, words: &mut [u64]);
    capi_word_of as word_of(a: u8, b: u8, c: u8, d: u8);
}

// Runs.
calls! {
    capi_check_run as check_run(s: &[u8], bit: usize, limit: u16, count: u32);
    capi_check_fives as check_fives(s: &[u8], bit: usize, limit: u16, count: u32);
    capi_fill_run as fill_run(s: &[u8], bit: usize, width: u32, from: u16, out: &mut [u16]);
    capi_fill_fives as fill_fives(s: &[u8], bit: usize, width: u32, out: &mut [u16]);
}

// Numbers and floats.
calls! {
    capi_zigzag as zigzag(n: u32);
    capi_stepped as stepped(last: u32, field: u32, words: &mut [u64]);
    capi_run_on as run_on(last: u32, field: u32, limit: u32);
    capi_bit_width as bit_width(count: u32);
    capi_nearest as nearest(v: u32);
    capi_scale as scale(v: u32);
    capi_float_bits as float_bits(x: f32);
    capi_put_word as put_word(out: &mut [u8], at: usize, x: u32, words: &mut [u64]);
    capi_put_field as put_field(out: &mut [u8], bit: usize, width: u32, value: u32, words: &mut [u64]);
}

// Crops and cube maps.
calls! {
    capi_is_usable as is_usable(crop: [f32; 4]);
    capi_equi_crop as equi_crop(fields: [u32; 4], words: &mut [u64]);
    capi_parse_equi as parse_equi(payload: &[u8], words: &mut [u64]);
    capi_write_equi as write_equi(fields: [u32; 4], out: &mut [u8], words: &mut [u64]);
    capi_parse_cbmp as parse_cbmp(payload: &[u8], words: &mut [u64]);
    capi_write_cbmp as write_cbmp(padding: u32, out: &mut [u8], words: &mut [u64]);
    capi_sphere_indices as sphere_indices(rings: u32, sectors: u32, out: &mut [u16], words: &mut [u64]);
    capi_sphere_indices_bounded as sphere_indices_bounded(
        rings: u32, sectors: u32, crop: [f32; 4], out: &mut [u16], words: &mut [u64]);
    capi_sphere_uvs as sphere_uvs(rings: u32, sectors: u32, out: &mut [u32], words: &mut [u64]);
    capi_cubemap_indices as cubemap_indices(cells: u32, out: &mut [u16], words: &mut [u64]);
    capi_cubemap_mesh as cubemap_mesh(cells: u32, radius: f32, padding: f32, out: &mut [u32], words: &mut [u64]);
    capi_padding_share as padding_share(padding: u32, face: u32);
    capi_sphere_lengths as sphere_lengths(rings: u32, sectors: u32, crop: [f32; 4], words: &mut [u64]);
    capi_cubemap_lengths as cubemap_lengths(cells: u32, radius: f32, padding: f32, words: &mut [u64]);
}

// Counts and the viewer's small calls.
calls! {
    capi_vertex_count as vertex_count(rings: u32, sectors: u32, words: &mut [u64]);
    capi_index_count as index_count(rings: u32, sectors: u32, words: &mut [u64]);
    capi_cubemap_vertex_count as cubemap_vertex_count(cells: u32, words: &mut [u64]);
    capi_cubemap_index_count as cubemap_index_count(cells: u32, words: &mut [u64]);
    capi_layout_from_raw as layout_from_raw(v: u32);
    capi_pair_from_raw as pair_from_raw(v: u32);
    capi_projection_from_raw as projection_from_raw(v: u32);
    capi_is_windowed as is_windowed(layout: u32);
    capi_is_panoramic as is_panoramic(projection: u32);
    capi_projection_bounds as projection_bounds(projection: u32, words: &mut [u64]);
    capi_uv_window as uv_window(layout: u32, eye: u32, words: &mut [u64]);
    capi_anaglyph_mix as anaglyph_mix(pair: u32, eye: u32, words: &mut [u64]);
    capi_fov_for_zoom as fov_for_zoom(zoom: f32);
    capi_zoom_for_fov as zoom_for_fov(fov: f32);
}

// Meshes, mesh lists and the scene call.
calls! {
    capi_measure_meshes as measure_meshes(payload: &[u8], words: &mut [u64]);
    capi_find_submesh as find_submesh(payload: &[u8], number: u32, words: &mut [u64]);
    capi_mesh_records as mesh_records(payload: &[u8], records: &mut [u32], words: &mut [u64]);
    capi_texture_points as texture_points(payload: &[u8], out: &mut [u32], words: &mut [u64]);
    capi_measure_mesh as measure_mesh(body: &[u8], words: &mut [u64]);
    capi_parse_mesh as parse_mesh(body: &[u8], pool: &mut [u32], coordinates: &mut [u16],
        submeshes: &mut [u32], points: &mut [u16], words: &mut [u64]);
    capi_write_mesh as write_mesh(pool: &[u32], coordinates: &[u16],
        submeshes: &[u32], points: &[u16], out: &mut [u8], words: &mut [u64]);
    capi_parse_meshes as parse_meshes(payload: &[u8],
        numbers: &mut [u16], floats: &mut [u32], records: &mut [u32], words: &mut [u64]);
    capi_scene as scene(kind: u32, payload: &[u8], given: Given,
        numbers: &mut [u16], floats: &mut [u32], records: &mut [u32], words: &mut [u64]);
}

// What a display makes of records.
calls! {
    capi_triangles as triangles(records: &[u32], out: &mut [u32], words: &mut [u64]);
    capi_none_shown as none_shown(list: &mut [u32], words: &mut [u64]);
    capi_show as show(
        list: &mut [u32], count: u32, total: u64, number: u32, records: &[u32], words: &mut [u64]);
    capi_hide as hide(
        list: &mut [u32], count: u32, total: u64, number: u32, records: &[u32], words: &mut [u64]);
    capi_share_points as share_points(points: u32, wishes: &[u32], shares: &mut [u32], words: &mut [u64]);
}

// What the alignment bench asks of a mesh list.
calls! {
    capi_look_up as look_up(payload: &[u8], number: u32, asked: &[u32], vertices: &mut [u16], words: &mut [u64]);
}

// The five functions of libviewer.a.
calls! {
    hoodsorrel_measure_meshes as viewer_measure_meshes(payload: &[u8]);
    hoodsorrel_vertex_count as viewer_vertex_count(rings: u32, sectors: u32);
    hoodsorrel_index_count as viewer_index_count(rings: u32, sectors: u32);
    hoodsorrel_cubemap_vertex_count as viewer_cubemap_vertex_count(cells: u32);
    hoodsorrel_cubemap_index_count as viewer_cubemap_index_count(cells: u32);
}
