//! The right tick of a flight, what it leaves, and what it would come to, for those who choose its inputs.

use super::frames::attitude;
use super::model::{Flight, Input, Right, Steps};
use super::route::Source;
use oracle::geo::{self, Mat3, Vec3};

impl Flight {
    /// A tick on the image's segment.
    #[inline]
    pub fn tick(&mut self, input: &[u8], answer: &mut [u8]) {
        Right.tick(self, &Source::Segment, &Input::read(input)).write(answer);
    }

    /// The whole image.
    pub fn write(&self, image: &mut [u8]) {
        Right.write(self, image);
    }

    /// The attitude that a tick with these inputs would want, and the feedforward.
    pub fn attitude_ahead(&self, source: &Source, [track_err, yaw, yaw_rate, dt]: [f32; 4]) -> (Option<Mat3>, Option<Vec3>) {
        let mut sample = Right.sample(self, source, self.time_ahead(track_err, dt));
        Right.clean(&mut sample);
        (attitude(sample.acc, yaw), geo::flatness_omega_ff(sample.acc, sample.jerk, yaw, yaw_rate))
    }

    /// And its time.
    pub fn time_ahead(&self, track_err: f32, dt: f32) -> f32 {
        self.governor.clone().advance(track_err, dt)
    }
}
