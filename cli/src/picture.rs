//! A drawing as a picture (SVG) or as a graph for Graphviz (DOT). The picture has
//! the object at the left and the others in columns by their distance from it.
//! All lines run in the gutters between columns, where there are no boxes.

mod card;
mod dot;
mod geometry;
mod heights;
mod labels;
mod layers;
mod layout;
mod legend;
mod lines;
mod measure;
mod order;
mod paint;
mod part;
mod ports;
mod relief;
mod route;
mod svg;
mod ways;

pub use dot::dot;
pub use svg::svg;
