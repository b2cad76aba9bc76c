//! Stand-in for the part of threecrate_core that quadric_error.rs uses and that
//! isn't in the sources. Document 01 decides what is empty and what is valid.

pub type Point3f = nalgebra::Point3<f32>;
pub type Vector3f = nalgebra::Vector3<f32>;
pub type Result<T> = std::result::Result<T, Error>;

#[derive(Debug)]
pub enum Error {
    InvalidData(String),
    Algorithm(String),
}

#[derive(Clone, Debug)]
pub struct TriangleMesh {
    pub vertices: Vec<Point3f>,
    pub faces: Vec<[usize; 3]>,
}

impl TriangleMesh {
    pub fn from_vertices_and_faces(vertices: Vec<Point3f>, faces: Vec<[usize; 3]>) -> Self {
        Self { vertices, faces }
    }

    /// Answer 4 of document 01.
    pub fn is_empty(&self) -> bool {
        self.vertices.is_empty() || self.faces.is_empty()
    }

    /// Answers 8 and 9 of document 01.
    pub fn validate_faces(&self) -> Result<()> {
        for &[a, b, c] in &self.faces {
            if a.max(b).max(c) >= self.vertices.len() || a == b || b == c || c == a {
                return Err(Error::InvalidData("bad face".to_string()));
            }
        }
        Ok(())
    }
}
