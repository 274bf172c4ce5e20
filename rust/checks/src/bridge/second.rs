//! The model behind the same boundary: the second opinion.

behind!(model::boundary);
