//! Stand-in for the crate geojson: the shapes that the Rust fills and reads, and nothing else.
//! It carries data only; there is no parsing, no writing and no checking.

/// A property map.
pub type JsonObject = serde_json::Map<String, JsonValue>;

/// A property value.
pub type JsonValue = serde_json::Value;

/// A bounding box; always absent here.
pub type Bbox = Vec<f64>;

/// A position: x and y.
pub type Position = Vec<f64>;

pub mod feature {
    //! The identifier of a feature.

    /// A feature's identifier.
    #[derive(Clone, Debug, PartialEq)]
    pub enum Id {
        /// Text.
        String(String),
    }
}

/// What a geometry holds. The Rust looks at points and passes the rest by.
#[derive(Clone, Debug, PartialEq)]
pub enum Value {
    /// One position.
    Point(Position),
    /// Several positions.
    MultiPoint(Vec<Position>),
}

/// A geometry.
#[derive(Clone, Debug, PartialEq)]
pub struct Geometry {
    pub bbox: Option<Bbox>,
    pub value: Value,
    pub foreign_members: Option<JsonObject>,
}

impl Geometry {
    /// The geometry that holds this value and nothing else.
    pub fn new(value: Value) -> Self {
        Geometry { bbox: None, value, foreign_members: None }
    }
}

/// A feature: an identifier, a geometry and properties.
#[derive(Clone, Debug, Default, PartialEq)]
pub struct Feature {
    pub bbox: Option<Bbox>,
    pub geometry: Option<Geometry>,
    pub id: Option<feature::Id>,
    pub properties: Option<JsonObject>,
    pub foreign_members: Option<JsonObject>,
}

impl Feature {
    /// The property of this name.
    pub fn property(&self, key: impl AsRef<str>) -> Option<&JsonValue> {
        self.properties.as_ref()?.get(key.as_ref())
    }

    /// Whether there is a property of this name.
    pub fn contains_property(&self, key: impl AsRef<str>) -> bool {
        self.property(key).is_some()
    }
}

/// A list of features.
#[derive(Clone, Debug, PartialEq)]
pub struct FeatureCollection {
    pub bbox: Option<Bbox>,
    pub features: Vec<Feature>,
    pub foreign_members: Option<JsonObject>,
}
