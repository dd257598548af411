//! Document 01's mesh builder: six numbers a vertex, each `a + weight * (b - a)`.

use crate::sample::Sample;
use transvoxel::structs::grid_point::GridPoint;
use transvoxel::structs::vertex_index::VertexIndex;
use transvoxel::traits::mesh_builder::MeshBuilder;

/// Vertices (position, gradient) and triangles, in the order they were called for.
#[derive(Default)]
pub struct Builder {
    pub vertices: Vec<[f32; 6]>,
    pub triangles: Vec<[u32; 3]>,
}

fn between(a: f32, b: f32, weight: f32) -> f32 {
    a + weight * (b - a)
}

fn six_numbers(point: &GridPoint<Sample, f32>) -> [f32; 6] {
    let (p, g) = (&point.position, &point.gradient);
    [p.x, p.y, p.z, g.0 .0, g.1 .0, g.2 .0]
}

fn index(vertex: VertexIndex) -> u32 {
    u32::try_from(vertex.0).expect("a vertex index of 32 bits")
}

impl MeshBuilder<Sample, f32> for Builder {
    fn add_vertex_between(
        &mut self,
        point_a: GridPoint<Sample, f32>,
        point_b: GridPoint<Sample, f32>,
        interpolate_toward_b: Sample,
    ) -> VertexIndex {
        let (a, b) = (six_numbers(&point_a), six_numbers(&point_b));
        let weight = interpolate_toward_b.0;
        self.vertices.push(std::array::from_fn(|k| between(a[k], b[k], weight)));
        VertexIndex(self.vertices.len() - 1)
    }

    fn add_triangle(&mut self, first: VertexIndex, second: VertexIndex, third: VertexIndex) {
        self.triangles.push([index(first), index(second), index(third)]);
    }
}
