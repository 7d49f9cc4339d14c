//! The sheet as a value, written to bytes and read from them (document 01, "The sheet").

/// The bytes of a sheet's header, of one row, of one vehicle and of one matrix entry.
pub const HEADER: usize = 16;
pub const ROW: usize = 48;
pub const VEHICLE: usize = 72;
pub const ENTRY: usize = 8;

/// Methods.
pub const SAVINGS: u8 = 0;
pub const INSERTION: u8 = 1;
pub const NEAREST: u8 = 2;
pub const NN_TW: u8 = 3;
pub const SWEEP: u8 = 4;

/// Row marks.
pub const DEPOT: u32 = 1;
pub const WINDOW: u32 = 2;
pub const PENALTY: u32 = 4;

/// Vehicle marks.
pub const MAX_DISTANCE: u32 = 1;
pub const MAX_DURATION: u32 = 2;
pub const REST: u32 = 4;
/// The rest may be taken at home (document 02, request Four).
pub const HOME: u32 = 8;

#[derive(Clone, Default)]
pub struct Row {
    pub x: i32,
    pub y: i32,
    pub demand: i32,
    pub marks: u32,
    pub service: f64,
    pub ready: f64,
    pub due: f64,
    pub penalty: f64,
}

#[derive(Clone, Default)]
pub struct Vehicle {
    pub id: u32,
    pub depot: u32,
    pub capacity: i32,
    pub marks: u32,
    pub cost_per_distance: f64,
    pub fixed_cost: f64,
    pub max_distance: f64,
    pub max_duration: f64,
    pub earliest: f64,
    pub latest: f64,
    pub rest_duration: f64,
}

#[derive(Clone)]
pub struct Sheet {
    pub method: u8,
    pub rows: Vec<Row>,
    pub vehicles: Vec<Vehicle>,
    pub distances: Vec<f64>,
    pub times: Option<Vec<f64>>,
}

/// The counts in a sheet's header, by which the rest of it lies.
#[derive(Clone, Copy)]
pub struct Header {
    pub rows: usize,
    pub vehicles: usize,
    pub method: u8,
    pub time_table: u8,
}

/// `N` bytes from `at` on.
pub fn field<const N: usize>(bytes: &[u8], at: usize) -> [u8; N] {
    bytes[at..at + N].try_into().expect("N bytes")
}

fn i32_at(bytes: &[u8], at: usize) -> i32 {
    i32::from_le_bytes(field(bytes, at))
}

fn u32_at(bytes: &[u8], at: usize) -> u32 {
    u32::from_le_bytes(field(bytes, at))
}

fn f64_at(bytes: &[u8], at: usize) -> f64 {
    f64::from_le_bytes(field(bytes, at))
}

impl Header {
    /// The header of at least 16 bytes.
    pub fn of(bytes: &[u8]) -> Header {
        Header {
            rows: u16::from_le_bytes(field(bytes, 0)).into(),
            vehicles: u16::from_le_bytes(field(bytes, 2)).into(),
            method: bytes[4],
            time_table: bytes[5],
        }
    }

    pub fn row_at(&self, row: usize) -> usize {
        HEADER + ROW * row
    }

    pub fn vehicle_at(&self, vehicle: usize) -> usize {
        self.row_at(self.rows) + VEHICLE * vehicle
    }

    pub fn matrix_at(&self) -> usize {
        self.vehicle_at(self.vehicles)
    }

    /// The distances, and the times if there are any.
    pub fn entries(&self) -> usize {
        self.rows * self.rows * (1 + usize::from(self.time_table))
    }

    pub fn sheet_len(&self) -> usize {
        self.matrix_at() + ENTRY * self.entries()
    }
}

impl Row {
    fn decode(bytes: &[u8]) -> Row {
        Row {
            x: i32_at(bytes, 0),
            y: i32_at(bytes, 4),
            demand: i32_at(bytes, 8),
            marks: u32_at(bytes, 12),
            service: f64_at(bytes, 16),
            ready: f64_at(bytes, 24),
            due: f64_at(bytes, 32),
            penalty: f64_at(bytes, 40),
        }
    }

    fn encode(&self, bytes: &mut Vec<u8>) {
        for whole in [self.x, self.y, self.demand, self.marks as i32] {
            bytes.extend(whole.to_le_bytes());
        }
        for float in [self.service, self.ready, self.due, self.penalty] {
            bytes.extend(float.to_le_bytes());
        }
    }
}

impl Vehicle {
    fn decode(bytes: &[u8]) -> Vehicle {
        Vehicle {
            id: u32_at(bytes, 0),
            depot: u32_at(bytes, 4),
            capacity: i32_at(bytes, 8),
            marks: u32_at(bytes, 12),
            cost_per_distance: f64_at(bytes, 16),
            fixed_cost: f64_at(bytes, 24),
            max_distance: f64_at(bytes, 32),
            max_duration: f64_at(bytes, 40),
            earliest: f64_at(bytes, 48),
            latest: f64_at(bytes, 56),
            rest_duration: f64_at(bytes, 64),
        }
    }

    fn encode(&self, bytes: &mut Vec<u8>) {
        for whole in [self.id, self.depot, self.capacity as u32, self.marks] {
            bytes.extend(whole.to_le_bytes());
        }
        for float in [
            self.cost_per_distance,
            self.fixed_cost,
            self.max_distance,
            self.max_duration,
            self.earliest,
            self.latest,
            self.rest_duration,
        ] {
            bytes.extend(float.to_le_bytes());
        }
    }
}

impl Sheet {
    /// The sheet of bytes that have the length their header asks for.
    pub fn decode(bytes: &[u8]) -> Sheet {
        let header = Header::of(bytes);
        let (rows, rest) = bytes[HEADER..].split_at(ROW * header.rows);
        let (vehicles, matrix) = rest.split_at(VEHICLE * header.vehicles);
        let mut distances: Vec<f64> = matrix.chunks_exact(ENTRY).map(|e| f64_at(e, 0)).collect();
        let times = distances.split_off(header.rows * header.rows);
        Sheet {
            method: header.method,
            rows: rows.chunks_exact(ROW).map(Row::decode).collect(),
            vehicles: vehicles.chunks_exact(VEHICLE).map(Vehicle::decode).collect(),
            distances,
            times: (header.time_table == 1).then_some(times),
        }
    }

    pub fn encode(&self) -> Vec<u8> {
        let mut bytes = Vec::new();
        bytes.extend((self.rows.len() as u16).to_le_bytes());
        bytes.extend((self.vehicles.len() as u16).to_le_bytes());
        bytes.extend([self.method, self.times.is_some().into()]);
        bytes.resize(HEADER, 0);
        self.rows.iter().for_each(|row| row.encode(&mut bytes));
        self.vehicles.iter().for_each(|vehicle| vehicle.encode(&mut bytes));
        for entry in self.distances.iter().chain(self.times.iter().flatten()) {
            bytes.extend(entry.to_le_bytes());
        }
        bytes
    }

    /// When a vehicle has to be home: the due of its depot's row, if that has a window.
    pub fn home_due(&self, vehicle: &Vehicle) -> Option<f64> {
        let depot = self.rows.get(vehicle.depot as usize)?;
        (depot.marks & WINDOW != 0).then_some(depot.due)
    }

    /// The leading rows marked as depots; row 0 counts as one even unmarked or missing.
    pub fn depots(&self) -> usize {
        let leading = self.rows.iter().take_while(|row| row.marks & DEPOT != 0);
        leading.count().max(1)
    }
}
