//! Stands for `src/keywords`: reserved words of shading languages, unused here.
