//! Prints the parameter sets and the slice segment headers of a stream, a line each, as examples/c/sets.c does.

mod fezhalum;

use fezhalum::{Refusal, Sets, sys};

const ENTROPY_CODING_SYNC: u32 = 1 << 12;
const WEIGHTED_PRED: u32 = 1 << 8;
const VPS_TIMING: u32 = 1 << 4;
const VUI_TIMING: u32 = 1 << 11;
const DEPENDENT: u32 = 1 << 2;

fn rate(time_scale: u32, num_units_in_tick: u32) -> String {
    format!(", {time_scale}/{num_units_in_tick} pictures a second")
}

fn print_vps(s: &sys::Vps) {
    let level = s.profile.general_level_idc;
    let timing = if s.flags & VPS_TIMING != 0 { rate(s.vps_time_scale, s.vps_num_units_in_tick) } else { String::new() };
    println!(
        "vps {}: {} sub-layers, profile {}, level {}.{}{timing}",
        s.vps_video_parameter_set_id, s.vps_max_sub_layers_minus1 + 1, s.profile.general_profile_idc, level / 30, level % 30 / 3
    );
}

fn print_sps(s: &sys::Sps) {
    let sub_layers: String = (0..=usize::from(s.sps_max_sub_layers_minus1))
        .map(|i| format!(", sub-layer {i} buffers {} reorders {}", s.sps_max_dec_pic_buffering_minus1[i] + 1, s.sps_max_num_reorder_pics[i]))
        .collect();
    let timing = if s.vui.flags & VUI_TIMING != 0 { rate(s.vui.vui_time_scale, s.vui.vui_num_units_in_tick) } else { String::new() };
    println!(
        "sps {}: vps {}, {}x{}, crop {} {} {} {}, chroma format {}, {} and {} bits{sub_layers}{timing}",
        s.sps_seq_parameter_set_id, s.sps_video_parameter_set_id, s.pic_width_in_luma_samples, s.pic_height_in_luma_samples,
        s.conf_win_left_offset, s.conf_win_right_offset, s.conf_win_top_offset, s.conf_win_bottom_offset, s.chroma_format_idc,
        s.bit_depth_luma_minus8 + 8, s.bit_depth_chroma_minus8 + 8
    );
}

fn print_pps(s: &sys::Pps) {
    println!(
        "pps {}: sps {}, {} by {} tiles, QP {}{}{}",
        s.pps_pic_parameter_set_id, s.pps_seq_parameter_set_id, s.num_tile_columns_minus1 + 1, s.num_tile_rows_minus1 + 1,
        26 + i32::from(s.init_qp_minus26), if s.flags & ENTROPY_CODING_SYNC != 0 { ", wavefronts" } else { "" },
        if s.flags & WEIGHTED_PRED != 0 { ", weights" } else { "" }
    );
}

fn print_slice(s: &sys::Slice) {
    let (address, set, header) = (s.slice_segment_address, s.slice_pic_parameter_set_id, s.header_bit_size);
    if s.flags & DEPENDENT != 0 {
        println!("slice at {address}: pps {set}, dependent, header of {header} bits");
        return;
    }
    println!(
        "slice at {address}: pps {set}, {}, order count {}, {} pictures, lists of {} and {}, QP delta {}, {} entry points, header of {header} bits",
        ["B", "P", "I", "?"][s.slice_type as usize & 3], s.slice_pic_order_cnt_lsb, s.num_pic_total_curr,
        s.num_ref_idx_l0_active_minus1 + 1, s.num_ref_idx_l1_active_minus1 + 1, s.slice_qp_delta, s.num_entry_point_offsets
    );
}

/// What the header says of the statuses that reading has.
fn text(status: u32) -> &'static str {
    match status {
        4 => "no memory",
        5 => "the unit has fewer than two bytes",
        6 => "the unit type is unspecified",
        7 => "the payload ends within an element",
        8 => "an element is out of range",
        9 => "a picture parameter set is not kept",
        17 => "too many bytes",
        18 => "a sequence parameter set is not kept",
        _ => "no status",
    }
}

/// Why a unit is refused: the element's name and what is allowed for it, or table and row.
fn print_refusal(kind: u32, why: &Refusal) {
    let name = if why.status == 8 { why.name() } else { String::new() };
    if name.is_empty() {
        println!("type {kind} refused: {}, {}:{}", text(why.status), why.table, why.row);
    } else {
        println!("type {kind} refused: {}, {name}: {}", text(why.status), why.bounds());
    }
}

fn print_read(told: &sys::Read, read: Result<(), Refusal>) {
    match (read, told.unit.nal_unit_type) {
        (Err(why), kind) => print_refusal(kind, &why),
        (Ok(()), 32) => print_vps(&told.vps),
        (Ok(()), 33) => print_sps(&told.sps),
        (Ok(()), 34) => print_pps(&told.pps),
        (Ok(()), 0..=9 | 16..=21) => print_slice(&told.slice),
        (Ok(()), _) => {}
    }
}

fn main() {
    let path = std::env::args().nth(1).expect("usage: sets FILE");
    let bytes = std::fs::read(path).expect("the file can't be read");
    let (mut sets, mut at) = (Sets::new(), 0);
    loop {
        let (told, read) = sets.read(&bytes[at..]);
        if matches!(read, Err(Refusal { status: 1, .. })) {
            break;
        }
        print_read(&told, read);
        at += told.unit.next as usize;
    }
}
