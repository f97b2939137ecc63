//! Draws the frames of a file of solids with tiny-skia, and writes their pixels to standard output: red, green, blue,
//! alpha, which is as many bytes as wrreplay writes.
use std::convert::TryInto;
use std::io::Write;
use tiny_skia::{Color, Paint, Pixmap, Rect, Transform};

fn number(bytes: &[u8]) -> i32 {
    i32::from_le_bytes(bytes[..4].try_into().unwrap())
}

fn draw(to: &mut Pixmap, solid: &[u8]) {
    let edges: Vec<f32> = (0..4).map(|k| number(&solid[4 * k..]) as f32).collect();
    let (b, g, r, a) = (solid[16], solid[17], solid[18], solid[19]);
    if a == 0 {
        return;
    }
    let part = |byte: u8| (byte as f32 / a as f32).min(1.0);
    let mut paint = Paint { anti_alias: false, ..Paint::default() };
    paint.set_color(Color::from_rgba(part(r), part(g), part(b), a as f32 / 255.0).unwrap());
    if let Some(rect) = Rect::from_ltrb(edges[0], edges[1], edges[2], edges[3]) {
        to.fill_rect(rect, &paint, Transform::identity(), None);
    }
}

fn main() {
    let path = std::env::args().nth(1).unwrap();
    let bytes = std::fs::read(path).unwrap();
    let (width, height) = (number(&bytes) as u32, number(&bytes[4..]) as u32);
    let (solids, frames) = (number(&bytes[8..]) as usize, number(&bytes[12..]) as usize);
    let mut to = Pixmap::new(width, height).unwrap();
    let mut out = std::io::stdout().lock();
    for frame in 0..frames {
        to.fill(Color::WHITE);
        for k in 0..solids {
            draw(&mut to, &bytes[16 + 20 * (frame * solids + k)..]);
        }
        out.write_all(to.data()).unwrap();
    }
}
