// Beside decoder.rs, so that its private functions can be called: a frame as `process_frame` reads it, up to the slots' numbers.
pub fn frame<R: Read>(decoder: &mut DecoderState, mut reader: R) -> Result<(usize, MainData), Error> {
    let header = read_frame_header(&mut reader)?;
    let side_info = read_side_info(&mut reader, &header)?;
    let bytes = read_logical_frame_data(decoder, &mut reader, &header, &side_info)?;
    let mut bits = BitReader::endian(bytes, BigEndian);
    let data = read_main_data(&mut bits, &header, &side_info)?;
    Ok((if header.crc { 6 } else { 4 } + header.data_size, data))
}
