//! Data: the values of elements, of those that are given up too.

use super::Dcel;
use crate::handles::*;
use crate::slab::Values;

/// Tells that there is no element with the number.
#[cold]
fn missing(kind: &str, number: u32) -> ! {
    panic!("there is no {kind} {number}");
}

/// Returns the value under a key, which `set` is given if it has none yet.
fn written<T>(values: &mut Values<T>, key: u64, set: impl FnOnce(u64)) -> &mut T {
    if key != 0 {
        return values.get_mut(key);
    }
    let key = values.insert_default();
    set(key);
    values.get_mut(key)
}

/// Each call panics if the number is out of range.
impl<V, DE, UE, F> Dcel<V, DE, UE, F> {
    /// Returns the datum of a vertex.
    ///
    /// ```
    /// use dcel::handles::FixedVertexHandle;
    /// use dcel::{Dcel, operations::new_triangle};
    ///
    /// let dcel: Dcel<_> = new_triangle(['a', 'b', 'c'])?;
    /// assert_eq!(dcel.vertex_data(FixedVertexHandle::new(2)), &'c');
    /// # Ok::<(), dcel::Refusal>(())
    /// ```
    pub fn vertex_data(&self, handle: FixedVertexHandle) -> &V {
        self.vertices.get(self.vertex_key(handle))
    }

    /// Lends the datum of a vertex.
    ///
    /// ```
    /// use dcel::handles::FixedVertexHandle;
    /// use dcel::{Dcel, operations::new_triangle};
    ///
    /// let mut dcel: Dcel<_> = new_triangle(["a", "b", "c"].map(String::from))?;
    /// dcel.vertex_data_mut(FixedVertexHandle::new(2)).push('d');
    /// assert_eq!(dcel.vertices().last().unwrap().data(), "cd");
    /// # Ok::<(), dcel::Refusal>(())
    /// ```
    pub fn vertex_data_mut(&mut self, handle: FixedVertexHandle) -> &mut V {
        self.vertices.get_mut(self.vertex_key(handle))
    }

    /// Replaces the datum of a vertex.
    ///
    /// ```
    /// use dcel::handles::FixedVertexHandle;
    /// use dcel::{Dcel, operations::new_triangle};
    ///
    /// let mut dcel: Dcel<_> = new_triangle(['a', 'b', 'c'])?;
    /// dcel.update_vertex(FixedVertexHandle::new(2), 'd');
    /// assert_eq!(dcel.vertices().last().unwrap().data(), &'d');
    /// # Ok::<(), dcel::Refusal>(())
    /// ```
    pub fn update_vertex(&mut self, handle: FixedVertexHandle, data: V) {
        *self.vertex_data_mut(handle) = data;
    }

    fn vertex_key(&self, handle: FixedVertexHandle) -> u64 {
        let number = handle.number();
        self.mesh
            .vertex_key(number)
            .unwrap_or_else(|| missing("vertex", number))
    }

    /// Returns the datum of a half edge: a default value, if it was never written.
    ///
    /// ```
    /// use dcel::handles::FixedDirectedEdgeHandle;
    /// use dcel::{Dcel, operations::new_triangle};
    ///
    /// let dcel: Dcel<_, u8> = new_triangle(['a', 'b', 'c'])?;
    /// assert_eq!(dcel.directed_edge_data(FixedDirectedEdgeHandle::new(5)), &0);
    /// # Ok::<(), dcel::Refusal>(())
    /// ```
    pub fn directed_edge_data(&self, handle: FixedDirectedEdgeHandle) -> &DE {
        self.directed_edges.get(self.directed_edge_key(handle))
    }

    /// Lends the datum of a half edge.
    ///
    /// ```
    /// use dcel::handles::FixedDirectedEdgeHandle;
    /// use dcel::{Dcel, operations::new_triangle};
    ///
    /// let mut dcel: Dcel<_, u8> = new_triangle(['a', 'b', 'c'])?;
    /// let edge = FixedDirectedEdgeHandle::new(5);
    /// *dcel.directed_edge_data_mut(edge) += 7;
    /// assert_eq!(dcel.directed_edge_data(edge), &7);
    /// assert_eq!(dcel.directed_edge_data(edge.rev()), &0);
    /// # Ok::<(), dcel::Refusal>(())
    /// ```
    pub fn directed_edge_data_mut(&mut self, handle: FixedDirectedEdgeHandle) -> &mut DE {
        let key = self.directed_edge_key(handle);
        let set = |key| self.mesh.set_directed_edge_key(handle.number(), key);
        written(&mut self.directed_edges, key, set)
    }

    fn directed_edge_key(&self, handle: FixedDirectedEdgeHandle) -> u64 {
        let number = handle.number();
        self.mesh
            .directed_edge_key(number)
            .unwrap_or_else(|| missing("half edge", number))
    }

    /// Returns the datum of an edge: a default value, if it was never written.
    ///
    /// ```
    /// use dcel::handles::FixedUndirectedEdgeHandle;
    /// use dcel::{Dcel, operations::new_triangle};
    ///
    /// let dcel: Dcel<_, (), bool> = new_triangle(['a', 'b', 'c'])?;
    /// assert!(!dcel.undirected_edge_data(FixedUndirectedEdgeHandle::new(2)));
    /// # Ok::<(), dcel::Refusal>(())
    /// ```
    pub fn undirected_edge_data(&self, handle: FixedUndirectedEdgeHandle) -> &UE {
        self.undirected_edges.get(self.undirected_edge_key(handle))
    }

    /// Lends the datum of an edge.
    ///
    /// ```
    /// use dcel::handles::FixedUndirectedEdgeHandle;
    /// use dcel::{Dcel, operations::new_triangle};
    ///
    /// let mut dcel: Dcel<_, (), bool> = new_triangle(['a', 'b', 'c'])?;
    /// *dcel.undirected_edge_data_mut(FixedUndirectedEdgeHandle::new(2)) = true;
    /// assert!(dcel.undirected_edges().map(|edge| *edge.data()).eq([false, false, true]));
    /// # Ok::<(), dcel::Refusal>(())
    /// ```
    pub fn undirected_edge_data_mut(&mut self, handle: FixedUndirectedEdgeHandle) -> &mut UE {
        let key = self.undirected_edge_key(handle);
        let set = |key| self.mesh.set_undirected_edge_key(handle.number(), key);
        written(&mut self.undirected_edges, key, set)
    }

    fn undirected_edge_key(&self, handle: FixedUndirectedEdgeHandle) -> u64 {
        let number = handle.number();
        self.mesh
            .undirected_edge_key(number)
            .unwrap_or_else(|| missing("edge", number))
    }

    /// Returns the datum of a face: a default value, if it was never written.
    ///
    /// ```
    /// use dcel::handles::OUTER_FACE;
    /// use dcel::{Dcel, operations::new_triangle};
    ///
    /// let dcel: Dcel<_, (), (), Option<f64>> = new_triangle(['a', 'b', 'c'])?;
    /// assert!(dcel.face_data(OUTER_FACE).is_none());
    /// # Ok::<(), dcel::Refusal>(())
    /// ```
    pub fn face_data<InnerOuter: InnerOuterMarker>(
        &self,
        handle: FixedFaceHandle<InnerOuter>,
    ) -> &F {
        self.faces.get(self.face_key(handle))
    }

    /// Lends the datum of a face.
    ///
    /// ```
    /// use dcel::handles::OUTER_FACE;
    /// use dcel::{Dcel, operations::new_triangle};
    ///
    /// let mut dcel: Dcel<_, (), (), Option<f64>> = new_triangle(['a', 'b', 'c'])?;
    /// *dcel.face_data_mut(OUTER_FACE) = Some(0.5);
    /// assert!(dcel.faces().map(|face| *face.data()).eq([Some(0.5), None]));
    /// # Ok::<(), dcel::Refusal>(())
    /// ```
    pub fn face_data_mut<InnerOuter: InnerOuterMarker>(
        &mut self,
        handle: FixedFaceHandle<InnerOuter>,
    ) -> &mut F {
        let key = self.face_key(handle);
        let set = |key| self.mesh.set_face_key(handle.number(), key);
        written(&mut self.faces, key, set)
    }

    fn face_key<InnerOuter: InnerOuterMarker>(&self, handle: FixedFaceHandle<InnerOuter>) -> u64 {
        let number = handle.number();
        self.mesh
            .face_key(number)
            .unwrap_or_else(|| missing("face", number))
    }
}
