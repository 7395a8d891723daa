//! What the program `ndl` prints for one or two axes and slices that fit, written as plain Rust without any check:
//! `plain stream` writes each number as it comes, `plain whole` lists the places first, makes the whole text, and
//! writes it.

use std::fmt::Write as _;
use std::io::{BufWriter, Read, Write, stdin, stdout};

fn numbers(word: &str) -> Vec<isize> {
    word.split(',').map(|n| n.parse().expect("a number")).collect()
}

/// One axis: how many coordinates, from one to the next, and from the place of its first coordinate to that of the
/// view's.
struct Axis {
    len: isize,
    stride: isize,
    offset: isize,
}

fn sliced(axis: Axis, word: &str) -> Axis {
    let (range, step) = word.split_once(';').unwrap_or((word, "1"));
    let (start, end) = range.split_once("..").expect("a range");
    let bound = |word: &str, missing| match word.parse::<isize>() {
        Ok(n) if n < 0 => axis.len + n,
        Ok(n) => n,
        Err(_) => missing,
    };
    let step: isize = step.parse().expect("a step");
    let (start, end) = (bound(start, 0), bound(end, axis.len));
    let end = end.max(start);
    let len = ((end - start) as usize).div_ceil(step.unsigned_abs()) as isize;
    let first = if step < 0 { end - 1 } else { start };
    Axis {
        len,
        stride: if len > 1 { axis.stride * step } else { 0 },
        offset: axis.offset + if len > 0 { first * axis.stride } else { 0 },
    }
}

fn joined(head: &str, numbers: impl Iterator<Item = isize>) -> String {
    let words: Vec<String> = numbers.map(|n| n.to_string()).collect();
    format!("{head} {}\n", words.join(","))
}

fn main() -> std::io::Result<()> {
    let mut script = String::new();
    stdin().read_to_string(&mut script)?;
    let mut axes = vec![];
    for line in script.lines() {
        let words: Vec<&str> = line.split_whitespace().collect();
        match words[..] {
            ["data", _, _, shape, strides] => {
                let each = numbers(shape).into_iter().zip(numbers(strides));
                axes = each
                    .map(|(len, stride)| Axis {
                        len,
                        stride,
                        offset: if stride < 0 { (1 - len) * stride } else { 0 },
                    })
                    .collect();
            }
            ["slice", list] => {
                axes = axes.into_iter().zip(list.split(',')).map(|(axis, word)| sliced(axis, word)).collect()
            }
            _ => panic!("line {line:?}"),
        }
    }
    let head =
        joined("shape", axes.iter().map(|axis| axis.len)) + &joined("strides", axes.iter().map(|axis| axis.stride));
    if axes.len() == 1 {
        axes.insert(0, Axis { len: 1, stride: 0, offset: 0 });
    }
    let [rows, columns] = &axes[..] else { panic!("one or two axes") };
    let start = rows.offset + columns.offset;
    let places = (0..rows.len)
        .flat_map(|i| (0..columns.len).map(move |j| (start + i * rows.stride + j * columns.stride) as usize));

    if std::env::args().nth(1).as_deref() == Some("whole") {
        let places: Vec<usize> = places.collect();
        let mut text = head + "places";
        for place in &places {
            write!(text, " {place}").expect("memory");
        }
        text.push('\n');
        stdout().write_all(text.as_bytes())
    } else {
        let mut out = BufWriter::new(stdout().lock());
        write!(out, "{head}places")?;
        for place in places {
            write!(out, " {place}")?;
        }
        writeln!(out)?;
        out.flush()
    }
}
