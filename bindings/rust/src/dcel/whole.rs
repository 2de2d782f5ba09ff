//! Calls that go over the whole mesh.

use super::Dcel;
use crate::handles::{FixedVertexHandle, OUTER_FACE};
use crate::links::Links;
use crate::refusal::{Refusal, Refused};
use crate::slab::{Slab, Values};

impl<V, DE, UE, F> Dcel<V, DE, UE, F> {
    /// Makes room in memory for that many more elements.
    ///
    /// # Errors
    ///
    /// [`Refusal::NoRoom`] if there are no numbers for them, and [`Refusal::OutOfMemory`] if the
    /// links or the values of vertices find no memory.
    ///
    /// ```
    /// let mut dcel = dcel::Dcel::<char>::new()?;
    /// dcel.reserve_capacity(100, 300, 200)?;
    /// assert_eq!(dcel.reserve_capacity(usize::MAX, 0, 0), Err(dcel::Refusal::NoRoom));
    /// # Ok::<(), dcel::Refusal>(())
    /// ```
    pub fn reserve_capacity(
        &mut self,
        vertices: usize,
        undirected_edges: usize,
        faces: usize,
    ) -> Result<(), Refusal> {
        self.mesh
            .reserve_capacity(vertices as u64, undirected_edges as u64, faces as u64)?;
        self.vertices.try_reserve(vertices)
    }

    /// Takes out all vertices, all edges and all inner faces, and closes a removal. The outer face
    /// keeps its datum.
    ///
    /// ```
    /// use dcel::{Dcel, operations::new_triangle};
    ///
    /// let mut dcel: Dcel<_> = new_triangle(['a', 'b', 'c'])?;
    /// dcel.clear();
    /// assert_eq!((dcel.num_vertices(), dcel.num_undirected_edges(), dcel.num_faces()), (0, 0, 1));
    /// # Ok::<(), dcel::Refusal>(())
    /// ```
    pub fn clear(&mut self) {
        let outer = self
            .mesh
            .face_key(OUTER_FACE.number())
            .filter(|key| *key != 0);
        let cleared = self.mesh.clear();
        debug_assert!(cleared.is_ok());
        let kept = outer.map(|key| self.faces.take(key));
        let gone = self.take_all();
        if let Some(datum) = kept {
            let key = self.faces.insert(datum);
            self.mesh.set_face_key(OUTER_FACE.number(), key);
        }
        drop(gone);
    }

    /// Replaces the mesh by one triangle, counterclockwise, with vertices 0, 1 and 2. All data of
    /// the mesh before are dropped, also the outer face's.
    ///
    /// # Errors
    ///
    /// [`Refusal::OutOfMemory`]. The mesh stays, and the data come back.
    ///
    /// ```
    /// use dcel::{Dcel, operations::append_unconnected_vertex};
    ///
    /// let mut dcel = Dcel::<char>::new()?;
    /// append_unconnected_vertex(&mut dcel, 'a')?;
    /// dcel.replace_by_triangle(['b', 'c', 'd'])?;
    /// assert!(dcel.vertices().map(|vertex| *vertex.data()).eq(['b', 'c', 'd']));
    /// # Ok::<(), dcel::Refusal>(())
    /// ```
    pub fn replace_by_triangle(&mut self, data: [V; 3]) -> Result<(), Refused<[V; 3]>> {
        let mut vertices = Slab::new();
        if let Err(why) = vertices.try_reserve(data.len()) {
            return Err(Refused { why, back: data });
        }
        let [a, b, c] = data.map(|datum| vertices.insert(datum));
        if let Err(why) = self.mesh.new_triangle(a, b, c) {
            return Err(Refused {
                why,
                back: [a, b, c].map(|key| vertices.remove(key)),
            });
        }
        let gone = self.take_all();
        self.vertices = vertices;
        drop(gone);
        Ok(())
    }

    /// Takes all values out, so that they can be dropped when the mesh is whole again.
    fn take_all(&mut self) -> (Slab<V>, Slab<DE>, Slab<UE>, Slab<F>) {
        (
            std::mem::replace(&mut self.vertices, Slab::new()),
            self.directed_edges.take_all(),
            self.undirected_edges.take_all(),
            self.faces.take_all(),
        )
    }

    /// Exchanges two vertices, with their data. They may be one.
    ///
    /// # Errors
    ///
    /// [`Refusal::NoSuchVertex`] and [`Refusal::GivenUp`].
    ///
    /// ```
    /// use dcel::handles::FixedVertexHandle;
    /// use dcel::{Dcel, operations::new_triangle};
    ///
    /// let mut dcel: Dcel<_> = new_triangle(['a', 'b', 'c'])?;
    /// dcel.swap_vertices(FixedVertexHandle::new(0), FixedVertexHandle::new(2))?;
    /// assert!(dcel.vertices().map(|vertex| *vertex.data()).eq(['c', 'b', 'a']));
    /// assert_eq!(dcel.directed_edges().next().unwrap().from().data(), &'a');
    /// # Ok::<(), dcel::Refusal>(())
    /// ```
    pub fn swap_vertices(
        &mut self,
        v0: FixedVertexHandle,
        v1: FixedVertexHandle,
    ) -> Result<(), Refusal> {
        self.mesh.swap_vertices(v0.number(), v1.number())
    }

    /// Returns the links of all half edges, and the anchors, taken out once.
    ///
    /// ```
    /// use dcel::{Dcel, operations::new_triangle};
    ///
    /// let dcel: Dcel<_> = new_triangle(['a', 'b', 'c'])?;
    /// let links = dcel.links();
    /// assert!(links.directed_edges().all(|edge| links.next(links.prev(edge)) == edge));
    /// # Ok::<(), dcel::Refusal>(())
    /// ```
    pub fn links(&self) -> Links {
        Links::of(&self.mesh)
    }

    /// Replaces the datum of each vertex by what `f` makes of it, by number.
    ///
    /// ```
    /// use dcel::{Dcel, operations::new_triangle};
    ///
    /// let dcel: Dcel<_> = new_triangle(['a', 'b', 'c'])?;
    /// let dcel = dcel.map_vertices(u32::from);
    /// assert!(dcel.vertices().map(|vertex| *vertex.data()).eq([97, 98, 99]));
    /// # Ok::<(), dcel::Refusal>(())
    /// ```
    pub fn map_vertices<V2>(mut self, mut f: impl FnMut(V) -> V2) -> Dcel<V2, DE, UE, F> {
        let mut vertices = Slab::new();
        for number in 0..self.num_vertices() as u32 {
            let key = self
                .mesh
                .vertex_key(number)
                .expect("the number is in range");
            let key = vertices.insert(f(self.vertices.remove(key)));
            self.mesh.set_vertex_key(number, key);
        }
        let Dcel {
            mesh,
            directed_edges,
            undirected_edges,
            faces,
            ..
        } = self;
        Dcel {
            mesh,
            vertices,
            directed_edges,
            undirected_edges,
            faces,
        }
    }

    /// Replaces the datum of each edge by what `f` makes of it, by number. New edges get the
    /// default of the new type.
    ///
    /// ```
    /// use dcel::{Dcel, operations::new_triangle};
    ///
    /// let dcel: Dcel<_, (), u8> = new_triangle(['a', 'b', 'c'])?;
    /// let dcel = dcel.map_undirected_edges(|count| vec!['x'; usize::from(count) + 1]);
    /// assert!(dcel.undirected_edges().all(|edge| edge.data() == &['x']));
    /// # Ok::<(), dcel::Refusal>(())
    /// ```
    pub fn map_undirected_edges<UE2: Default>(
        mut self,
        mut f: impl FnMut(UE) -> UE2,
    ) -> Dcel<V, DE, UE2, F> {
        let mut undirected_edges = Values::default();
        for number in 0..self.num_undirected_edges() as u32 {
            let key = self
                .mesh
                .undirected_edge_key(number)
                .expect("the number is in range");
            let key = undirected_edges.insert(f(self.undirected_edges.take(key)));
            self.mesh.set_undirected_edge_key(number, key);
        }
        let Dcel {
            mesh,
            vertices,
            directed_edges,
            faces,
            ..
        } = self;
        Dcel {
            mesh,
            vertices,
            directed_edges,
            undirected_edges,
            faces,
        }
    }
}

impl<V: Clone, DE: Clone, UE: Clone, F: Clone> Dcel<V, DE, UE, F> {
    /// Makes an equal mesh with clones of all data. [`Clone`] makes one too, and panics without
    /// memory.
    ///
    /// # Errors
    ///
    /// [`Refusal::OutOfMemory`].
    ///
    /// ```
    /// use dcel::{Dcel, operations::new_triangle};
    ///
    /// let mut dcel: Dcel<_> = new_triangle(['a', 'b', 'c'])?;
    /// let clone = dcel.try_clone()?;
    /// dcel.clear();
    /// assert_eq!(clone.num_vertices(), 3);
    /// # Ok::<(), dcel::Refusal>(())
    /// ```
    pub fn try_clone(&self) -> Result<Self, Refusal> {
        Ok(Self {
            mesh: self.mesh.try_clone()?,
            vertices: self.vertices.try_clone()?,
            directed_edges: self.directed_edges.try_clone()?,
            undirected_edges: self.undirected_edges.try_clone()?,
            faces: self.faces.try_clone()?,
        })
    }
}

impl<V: Clone, DE: Clone, UE: Clone, F: Clone> Clone for Dcel<V, DE, UE, F> {
    /// Makes an equal mesh with clones of all data. Panics if there is no memory.
    fn clone(&self) -> Self {
        self.try_clone().expect("there is memory for a mesh")
    }
}
