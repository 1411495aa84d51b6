// Beside decoder.rs, so that its private functions can be called; each call is handed on as it is.
pub fn side_info<R: Read>(data: R, header: &FrameHeader) -> Result<SideInfo, Error> {
    read_side_info(data, header)
}

pub fn logical_frame_data<R: Read>(
    decoder: &mut DecoderState,
    reader: R,
    header: &FrameHeader,
    side_info: &SideInfo,
) -> Result<Vec<u8>, Error> {
    read_logical_frame_data(decoder, reader, header, side_info).map(|bytes| bytes.to_vec())
}

pub fn slots<R: Read>(
    reader: &mut BitReader<R, BigEndian>,
    header: &FrameHeader,
    side_info: &SideInfo,
) -> Result<MainData, Error> {
    read_main_data(reader, header, side_info)
}

/// The factors of one slot, by the function that its version has; the bits that they took.
pub fn factors<R: Read>(
    reader: &mut BitReader<R, BigEndian>,
    header: &FrameHeader,
    granule: usize,
    channel: usize,
    side_info: &SideInfo,
    data: &mut MainData,
) -> Result<u32, Error> {
    if header.version == MpegVersion::Mpeg1 {
        read_scale_factors(reader, granule, channel, side_info, data)
    } else {
        read_lfs_scale_factors(
            reader,
            channel == 1 && header.is_intensity_stereo(),
            &side_info.granules[granule].channels[channel],
            &mut data.granules[granule].channels[channel],
        )
    }
}
