//! Names of `glam` that the reference mentions. Nothing that is compared calls them.

use std::ops::Mul;

#[derive(Clone, Copy)]
pub struct Vec3 {
    pub x: f32,
    pub y: f32,
    pub z: f32,
}

impl Vec3 {
    pub const NEG_Z: Vec3 = Vec3 {
        x: 0.0,
        y: 0.0,
        z: -1.0,
    };

    pub fn new(_x: f32, _y: f32, _z: f32) -> Vec3 {
        unimplemented!("stand-in for glam: Vec3::new")
    }
}

#[derive(Clone, Copy)]
pub struct Quat;

impl Quat {
    pub fn from_xyzw(_x: f32, _y: f32, _z: f32, _w: f32) -> Quat {
        unimplemented!("stand-in for glam: Quat::from_xyzw")
    }

    pub fn normalize(self) -> Quat {
        unimplemented!("stand-in for glam: Quat::normalize")
    }

    pub fn inverse(self) -> Quat {
        unimplemented!("stand-in for glam: Quat::inverse")
    }
}

impl Mul<Vec3> for Quat {
    type Output = Vec3;

    fn mul(self, _v: Vec3) -> Vec3 {
        unimplemented!("stand-in for glam: Quat * Vec3")
    }
}

#[derive(Clone, Copy)]
pub struct Mat4;

impl Mat4 {
    pub fn from_translation(_v: Vec3) -> Mat4 {
        unimplemented!("stand-in for glam: Mat4::from_translation")
    }

    pub fn from_quat(_q: Quat) -> Mat4 {
        unimplemented!("stand-in for glam: Mat4::from_quat")
    }

    pub fn to_cols_array(self) -> [f32; 16] {
        unimplemented!("stand-in for glam: Mat4::to_cols_array")
    }
}

impl Mul for Mat4 {
    type Output = Mat4;

    fn mul(self, _m: Mat4) -> Mat4 {
        unimplemented!("stand-in for glam: Mat4 * Mat4")
    }
}

pub mod camera {
    pub mod rh {
        pub mod proj {
            pub mod opengl {
                use crate::Mat4;

                pub fn perspective(_fov_y: f32, _aspect: f32, _near: f32, _far: f32) -> Mat4 {
                    unimplemented!("stand-in for glam: perspective")
                }
            }
        }
    }
}
