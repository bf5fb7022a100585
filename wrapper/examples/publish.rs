use std::io::Write;
fn main() -> Result<(), windgusset::Refusal> {
    let (mut records, mut store, mut buffer) = ([windgusset::Record::EMPTY; 1], [0; windgusset::STORE_BYTES], [0; windgusset::ANSWER_BYTES]);
    let mut table = windgusset::Table::open(&mut records, &mut store)?;
    table.add(b"ann", 0, 0)?;
    let request = b"PUBLISH ann SIP/2.0\r\nv: SIP/2.0/UDP pua\r\nf: <ann>;tag=1\r\nt: <ann>\r\ni: 1\r\nCSeq: 1 PUBLISH\r\nEvent: presence\r\nExpires: 3600\r\nc: application/pidf+xml\r\n\r\nx";
    let answer = table.handle(100, 1, request, &mut buffer)?;
    std::io::stdout().write_all(answer.message).expect("standard output can be written");
    Ok(())
}
