//! relay_pos: angles to a quaternion.

/// w, x, y, z.
#[repr(C)]
#[derive(Clone, Copy, Debug)]
pub struct Quaternion(pub f32, pub f32, pub f32, pub f32);

calls! {
    probe_euler_to_quaternion = euler_to_quaternion(roll: f32, pitch: f32, yaw: f32) -> Quaternion;
}
