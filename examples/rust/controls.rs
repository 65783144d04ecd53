//! Fills the structs of Linux's stateless decoders for each picture and slice segment of a stream, and compares them with the events, as
//! examples/c/controls.c does.

mod fezhalum;

use fezhalum::{Decoder, Refusal, sys};

#[derive(Default)]
struct Counts {
    pictures: u64,
    slices: u64,
    entry_points: u32,
    refused: u64,
    wrong: u64,
}

impl Counts {
    fn same<T: PartialEq + std::fmt::Debug>(&mut self, what: &str, given: T, wanted: T) {
        if given != wanted {
            println!("controls: picture {}: {what} is {given:?}, not {wanted:?}", self.pictures);
            self.wrong += 1;
        }
    }

    /// Each member of a reference picture set that is stored has 1000 times its number as timestamp.
    fn same_members(&mut self, params: &sys::V4l2DecodeParams, indices: &[u8; 16], members: &sys::Places) {
        for i in 0..members.count as usize {
            if members.kinds[i] == 0 {
                self.same("member", params.dpb[usize::from(indices[i])].timestamp, 1000 * members.numbers[i]);
            }
        }
    }

    fn check_picture(&mut self, decoder: &mut Decoder, sequence: &sys::Event, picture: &sys::Event, sets: &sys::Event) {
        self.pictures += 1;
        let Ok(sys::PictureStructs { sps, decode_params: params, .. }) = decoder.picture_controls() else {
            self.refused += 1;
            return;
        };
        self.same("width", u32::from(sps.pic_width_in_luma_samples), sequence.width);
        self.same("height", u32::from(sps.pic_height_in_luma_samples), sequence.height);
        self.same("order count", params.pic_order_cnt_val, picture.order_count);
        self.same("members before", u32::from(params.num_poc_st_curr_before), sets.lists[0].count);
        self.same("members after", u32::from(params.num_poc_st_curr_after), sets.lists[1].count);
        self.same("long-term members", u32::from(params.num_poc_lt_curr), sets.lists[3].count);
        self.same_members(&params, &params.poc_st_curr_before, &sets.lists[0]);
        self.same_members(&params, &params.poc_st_curr_after, &sets.lists[1]);
    }

    fn check_slice(&mut self, decoder: &mut Decoder, picture: &sys::Event, slice: &sys::Event) {
        self.slices += 1;
        let Ok(sys::SliceStructs { params, raw_data_byte_offset: raw }) = decoder.slice_controls() else {
            self.refused += 1;
            return;
        };
        self.entry_points += params.num_entry_point_offsets;
        let mut offsets = vec![0; params.num_entry_point_offsets as usize];
        self.same("entry points", decoder.entry_points(&mut offsets).ok(), Some(offsets.len()));
        self.same("bits", u64::from(params.bit_size), 8 * slice.size);
        self.same("address", params.slice_segment_addr, slice.address);
        self.same("order count of a slice", params.slice_pic_order_cnt, picture.order_count);
        self.same("end of list 0", params.ref_idx_l0[slice.lists[0].count as usize..].iter().all(|i| *i == 255), true);
        self.same("data within the unit", params.data_byte_offset <= raw && u64::from(raw) <= slice.size, true);
    }
}

/// The latest sequence and picture.
type Latest = (Option<sys::Event>, Option<sys::Event>);

fn take(decoder: &mut Decoder, latest: &mut Latest, counts: &mut Counts) {
    while let Some(event) = decoder.next() {
        match (event.kind, &*latest) {
            (1, _) => latest.0 = Some(event),
            (2, _) => latest.1 = Some(event),
            (3, (Some(sequence), Some(picture))) => counts.check_picture(decoder, sequence, picture, &event),
            (4, (_, Some(picture))) => counts.check_slice(decoder, picture, &event),
            (7, _) => return,
            _ => {}
        }
    }
}

fn main() {
    let path = std::env::args().nth(1).expect("usage: controls FILE");
    let bytes = std::fs::read(path).expect("the file can't be read");
    let (mut decoder, mut latest, mut counts, mut at) = (Decoder::new(), Latest::default(), Counts::default(), 0);
    counts.same("structs before any is wanted", decoder.picture_controls().is_ok(), false);
    assert!(decoder.want_controls().is_ok(), "no memory");
    counts.same("structs before any picture", decoder.picture_controls().is_ok(), false);
    loop {
        let answer = decoder.decode(&bytes[at..], 0, 17);
        take(&mut decoder, &mut latest, &mut counts);
        match answer {
            Ok(next) => at += next,
            Err(Refusal { status: 2, .. }) => assert!(decoder.accept_format().is_ok()),
            Err(_) => break,
        }
    }
    let _flushed = decoder.flush();
    take(&mut decoder, &mut latest, &mut counts);
    let Counts { pictures, slices, entry_points, refused, .. } = counts;
    println!("controls: {pictures} pictures, {slices} slice segments, {entry_points} entry points, {refused} can't be held");
    assert!(counts.wrong == 0);
}
