//! Draws a mesh list as SVG, `draw FILE`: where its points lie on the texture.

use hoodsorrel::{Drawing, Given, scene::MESHES};

fn main() -> Result<(), Box<dyn std::error::Error>> {
    let payload = std::fs::read(std::env::args().nth(1).ok_or("usage: draw FILE")?)?;
    let drawing = Drawing::of(MESHES, &payload, &Given::default()).map_err(|r| r.to_string())?;
    let dot = |[_, _, _, u, v]: &[f32; 5]| format!("<circle cx='{u}' cy='{}' r='.003'/>", 1.0 - v);
    let dots: String = drawing.points().iter().map(dot).collect();
    println!("<svg xmlns='http://www.w3.org/2000/svg' viewBox='0 0 1 1'>{dots}</svg>");
    Ok(())
}
