//! What examples/frames.c has to print, told by the reference model alone: the sums and the charts,
//! or with `--svg` the picture. `frames [--svg] MODE BIT FILE`; what is cut off of the file is left
//! out. `frames --sample` writes the two frames of examples/sample.frames.

use std::io::{self, Write};
use std::process::ExitCode;
use std::{env, fs};

use oracle::calls::frame;
use oracle::frames::{COLUMNS, FRAME_BYTES, ROWS};
use oracle::gen::Setup;

type Sums = [u32; COLUMNS];

fn main() -> ExitCode {
    let words: Vec<String> = env::args().skip(1).collect();
    let words: Vec<&str> = words.iter().map(|word| &**word).collect();
    let text = match words[..] {
        ["--sample"] => sample(),
        ["--svg", mode, bit, file] => picture(&added_up(mode, bit, file).0).into_bytes(),
        [mode, bit, file] => {
            let (profiles, held) = added_up(mode, bit, file);
            charts(&profiles, held).into_bytes()
        }
        _ => return ExitCode::from(2),
    };
    io::stdout().write_all(&text).expect("standard output");
    ExitCode::SUCCESS
}

/// Two fibres of the ribbon, across the columns: dark at the edges, bright in the middle, where a
/// fibre gathers the light like a lens, on a background with a little noise. Between the two frames
/// the second fibre moves by three columns.
fn sample() -> Vec<u8> {
    // From the middle of a fibre outwards, in columns.
    const FIBRE: [u8; 11] = [235, 220, 180, 140, 118, 104, 92, 78, 52, 24, 20];
    let mut pixels = Vec::new();
    for second in [43, 46] {
        for row in 0..ROWS {
            for column in 0..COLUMNS {
                let away = column.abs_diff(19).min(column.abs_diff(second));
                let light = FIBRE.get(away).copied().unwrap_or(66);
                pixels.push(light + ((row * 5 + column * 3 + second) % 7) as u8);
            }
        }
    }
    pixels
}

/// The sums of each whole frame of a file, and how many lines the caches hold at the end.
fn added_up(mode: &str, bit: &str, file: &str) -> (Vec<Sums>, [usize; 2]) {
    let number = |word: &str| word.parse().expect("a number");
    let mut setup = Setup::fresh(262_144, 65_536);
    assert_eq!((setup.mar(128, number(bit)).number, setup.mode(number(mode)).number), (0, 0));
    let (mut profiles, mut turn) = (Vec::new(), 0);
    for pixels in fs::read(file).expect("a file").chunks_exact(FRAME_BYTES) {
        let Setup { record, l1d, l2, ext, l1p } = &mut setup;
        let framed = frame(record, l1d, l2, ext, l1p, turn, pixels);
        assert_eq!(framed.number, 0);
        profiles.push(framed.sums);
        turn = framed.turn;
    }
    let l1d = setup.record.l1d.iter().flat_map(|set| set.lines).filter(|line| line.valid).count();
    let l2 = setup.record.l2.iter().flat_map(|set| set.lines).filter(|line| line.valid).count();
    (profiles, [l1d, l2])
}

fn charts(profiles: &[Sums], held: [usize; 2]) -> String {
    const LINES: u32 = 12;
    let mut text = String::new();
    for (number, sums) in profiles.iter().enumerate() {
        let place = if number % 2 == 0 { "80000000" } else { "80000C00" };
        text += &format!("frame {}, at {place}\n", number + 1);
        for (line, part) in sums.chunks(16).enumerate() {
            let numbers: String = part.iter().map(|sum| format!(" {sum:5}")).collect();
            text += &format!("{:5}:{numbers}\n", 16 * line);
        }
        let most = *sums.iter().max().expect("64 sums");
        for line in (0..LINES).rev() {
            let label = if line + 1 == LINES { format!("{most:5}") } else { "     ".into() };
            let mark = |sum: &u32| if sum * LINES > line * most { '#' } else { ' ' };
            text += &format!("{label} |{}|\n", sums.iter().map(mark).collect::<String>());
        }
        text += &format!("    0 +{}+\n", "+-------".repeat(8));
    }
    if !profiles.is_empty() {
        text += &format!("held then: {} lines of L1D, {} of L2\n", held[0], held[1]);
    }
    text
}

fn picture(profiles: &[Sums]) -> String {
    const COLOURS: [&str; 6] = ["#1f77b4", "#d62728", "#2ca02c", "#ff7f0e", "#9467bd", "#17becf"];
    let most = profiles.iter().flatten().copied().max().unwrap_or(0).max(1);
    let mut text = String::from(
        "<svg xmlns=\"http://www.w3.org/2000/svg\" viewBox=\"0 0 740 340\" \
         font-family=\"sans-serif\" font-size=\"14\">\n",
    );
    text += &format!("<title>Column sums of {} frames</title>\n", profiles.len());
    text += "<rect width=\"100%\" height=\"100%\" fill=\"white\"/>\n";
    text += "<path d=\"M50 50V290H690\" fill=\"none\" stroke=\"black\"/>\n";
    text += &format!("<text x=\"45\" y=\"55\" text-anchor=\"end\">{most}</text>\n");
    text += "<text x=\"45\" y=\"290\" text-anchor=\"end\">0</text>\n";
    for column in (0..64).step_by(8) {
        let x = 55 + 10 * column;
        text += &format!("<text x=\"{x}\" y=\"310\" text-anchor=\"middle\">{column}</text>\n");
    }
    for (number, sums) in profiles.iter().enumerate() {
        let point = |(column, sum): (usize, &u32)| {
            format!("{},{}", 55 + 10 * column, 290 - sum * 240 / most)
        };
        let points: Vec<String> = sums.iter().enumerate().map(point).collect();
        text += &format!(
            "<polyline fill=\"none\" stroke=\"{}\" stroke-width=\"2\" points=\"{}\">\
             <title>frame {}</title></polyline>\n",
            COLOURS[number % COLOURS.len()],
            points.join(" "),
            number + 1
        );
    }
    text + "</svg>\n"
}
