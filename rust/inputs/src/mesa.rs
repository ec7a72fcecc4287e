/// Four words of each row, each with the text that Mesa's disassembler gives it.
pub fn mesa() -> Vec<(u64, &'static str)> {
    include_str!("../../../tests/data/mesa-disassembly.tsv")
        .lines()
        .filter(|line| !line.starts_with('#'))
        .map(|line| line.split_once('\t').expect("a word, a tab and its text"))
        .map(|(word, text)| (u64::from_str_radix(word, 16).expect("a word in hexadecimal"), text))
        .collect()
}
