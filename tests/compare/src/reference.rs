//! The reference answers: the Rust's own, as plan bytes, with reasons of this harness's (reasoning.rs).
//! Where a vehicle may rest at home they are those of the Rust's constructors and limiter over a walk of
//! this harness's (glue/home/evaluation.rs).

use u_routing::constructive as today;
use u_routing::distance::DistanceMatrix;
use u_routing::fleet::limit_routes;
use u_routing::home;
use u_routing::home::evaluation::{is_marked, marked, route_eval, RouteEvaluator};
use u_routing::home::evaluation::{RouteEval, RouteLimits};
use u_routing::models::{num_depots, Customer, Route, Solution, TimeWindow, Vehicle, VehicleBreak};

use crate::plan::{encode, plan_len, Chains};
use crate::reasoning::{copied, reasoned};
use crate::refusal::{accepted, limiter_accepted};
use crate::sheet::{self, Header, Row, Sheet};

const TAKEN: &str = "the Rust takes every accepted sheet";

/// An accepted sheet in the Rust's types.
pub struct Problem {
    pub method: u8,
    pub customers: Vec<Customer>,
    pub distances: DistanceMatrix,
    pub vehicles: Vec<Vehicle>,
}

/// What a constructor is given: a problem of one depot, or one depot's part of it.
pub struct Table<'a> {
    pub method: u8,
    pub customers: &'a [Customer],
    pub distances: &'a DistanceMatrix,
    pub vehicles: &'a [Vehicle],
}

/// The answer of a planner that offers these methods: a refusal or the plan's bytes.
pub fn plan(methods: &[u8], bytes: &[u8]) -> Result<Vec<u8>, u32> {
    solved(methods, bytes).map(|(sheet, solution)| reasoned(&sheet, &solution))
}

/// The same without reasons, for which the Rust has no code.
pub fn plan_by_rust(methods: &[u8], bytes: &[u8]) -> Result<Vec<u8>, u32> {
    solved(methods, bytes).map(|(sheet, solution)| encode(sheet.rows.len(), &solution))
}

fn solved(methods: &[u8], bytes: &[u8]) -> Result<(Sheet, Solution), u32> {
    let sheet = accepted(methods, bytes, &[len_for(bytes)])?;
    let solution = Problem::taken(&sheet).solution();
    Ok((sheet, solution))
}

/// The limiter's answer: a refusal or the plan out.
pub fn limit(bytes: &[u8], plan_in: &[u8], greatest: u32) -> Result<Vec<u8>, u32> {
    let (sheet, chains) = limiter_accepted(bytes, plan_in, len_for(bytes))?;
    let aside = chains.aside.clone();
    let solution = Problem::held(&sheet).limited(chains, greatest as usize);
    Ok(copied(plan_in, sheet.rows.len(), &aside, &solution))
}

/// The length of the plan buffer that a caller lends for a sheet.
fn len_for(bytes: &[u8]) -> usize {
    if bytes.len() < sheet::HEADER {
        return 0;
    }
    plan_len(Header::of(bytes).rows)
}

/// Whether a method holds a vehicle to its depot's due: nearest neighbour does so only with a rest.
pub fn is_held(method: u8, vehicle: &sheet::Vehicle) -> bool {
    method != sheet::NEAREST || vehicle.marks & sheet::REST != 0
}

impl Problem {
    /// As a planner takes a sheet. `None` if one of the Rust's constructors turns a value down, or it
    /// counts other depots.
    pub fn of(sheet: &Sheet) -> Option<Problem> {
        let held = |vehicle: &sheet::Vehicle| is_held(sheet.method, vehicle);
        Problem::with_dues(sheet, |vehicle| sheet.home_due(vehicle).filter(|_| held(vehicle)))
    }

    pub fn taken(sheet: &Sheet) -> Problem {
        Problem::of(sheet).expect(TAKEN)
    }

    /// As the limiter takes a sheet, and as single rounds are judged: every vehicle is held to its
    /// depot's due.
    pub fn held(sheet: &Sheet) -> Problem {
        Problem::with_dues(sheet, |vehicle| sheet.home_due(vehicle)).expect(TAKEN)
    }

    /// The problem where each vehicle has to be home by a due of its own.
    ///
    /// The Rust knows no due of a depot. But it asks for a maximum duration wherever a due is asked
    /// for, and in the same comparison: so the maximum is lowered to the due, or set to it. What a
    /// maximum switches on, a window on the depot's row has switched on already.
    pub fn with_dues(
        sheet: &Sheet,
        due: impl Fn(&sheet::Vehicle) -> Option<f64>,
    ) -> Option<Problem> {
        let depots = sheet.depots();
        let rows = sheet.rows.iter().enumerate();
        let customers: Vec<Customer> =
            rows.map(|(id, row)| customer(id, row, id < depots)).collect::<Option<_>>()?;
        let distances = DistanceMatrix::from_data(sheet.rows.len(), sheet.distances.clone())?;
        let distances = match &sheet.times {
            Some(times) => distances.with_travel_times(times.clone())?,
            None => distances,
        };
        let vehicles = sheet.vehicles.iter().map(|of| vehicle(of, due(of))).collect();
        let problem = Problem { method: sheet.method, customers, distances, vehicles };
        (num_depots(&problem.customers) == depots).then_some(problem)
    }

    /// The table of a problem of one depot.
    pub fn table(&self) -> Table<'_> {
        let &Problem { method, ref customers, ref distances, ref vehicles } = self;
        Table { method, customers, distances, vehicles }
    }

    /// The same with one vehicle alone.
    pub fn table_of(&self, vehicle: usize) -> Table<'_> {
        Table { vehicles: &self.vehicles[vehicle..=vehicle], ..self.table() }
    }

    /// The index of the vehicle with an id that the sheet has.
    pub fn driver_of(&self, id: u32) -> usize {
        let found = self.vehicles.iter().position(|vehicle| vehicle.id() == id as usize);
        found.expect("an id of the sheet's")
    }

    pub fn solution(&self) -> Solution {
        self.solution_by(|table| table.solution())
    }

    /// The solution where each depot's table is planned so, whenever it is.
    pub fn solution_by(&self, plan: impl Fn(&Table) -> Solution) -> Solution {
        let &Problem { method, ref customers, ref distances, ref vehicles } = self;
        let plan = |customers: &[Customer], distances: &DistanceMatrix, vehicles: &[Vehicle]| {
            plan(&Table { method, customers, distances, vehicles })
        };
        if vehicles.iter().any(is_marked) {
            home::constructive::construct_by_depot(customers, distances, vehicles, plan)
        } else {
            today::construct_by_depot(customers, distances, vehicles, plan)
        }
    }

    pub fn built(&self, driver: &Vehicle, stops: &[usize]) -> Route {
        RouteEvaluator::new(&self.customers, &self.distances, driver).build_route(stops).0
    }

    pub fn passes(&self, driver: &Vehicle, stops: &[usize]) -> bool {
        self.eval(driver, stops, &RouteLimits::of(driver)).is_some()
    }

    /// A round without a rest.
    pub fn walked(&self, driver: &Vehicle, stops: &[usize]) -> Route {
        let restless = Vehicle::new(driver.id(), driver.capacity()).with_depot(driver.depot_id());
        self.built(&restless, stops)
    }

    pub fn eval(
        &self,
        driver: &Vehicle,
        stops: &[usize],
        limits: &RouteLimits,
    ) -> Option<RouteEval> {
        route_eval(stops, driver.depot_id(), &self.distances, &self.customers, limits)
    }

    pub fn limited(&self, chains: Chains, greatest: usize) -> Solution {
        let Problem { customers, distances, vehicles, .. } = self;
        let (ids, routes): (Vec<u32>, Vec<Vec<usize>>) = chains.rounds.into_iter().unzip();
        let driven = ids.into_iter().map(|id| self.driver_of(id)).collect();
        let (routes, driven, unserved) = if vehicles.iter().any(is_marked) {
            use home::fleet::limit_routes;
            let left = limit_routes(routes, driven, vehicles, greatest, distances, customers);
            (left.routes, left.vehicles, left.unserved)
        } else {
            let left = limit_routes(routes, driven, vehicles, greatest, distances, customers);
            (left.routes, left.vehicles, left.unserved)
        };
        let routes = driven.iter().zip(&routes);
        let routes = routes.map(|(&driver, stops)| self.built(&vehicles[driver], stops));
        let mut aside = [chains.aside, unserved].concat();
        aside.sort_unstable();
        self.priced(routes, &aside)
    }

    /// Rounds and stops set aside, as a solution.
    pub fn priced(&self, routes: impl Iterator<Item = Route>, aside: &[usize]) -> Solution {
        let mut solution = Solution::new();
        routes.for_each(|route| solution.add_route(route));
        aside.iter().for_each(|&stop| solution.add_unassigned(stop));
        solution.price(|route| &self.vehicles[self.driver_of(route.vehicle_id() as u32)]);
        solution
    }
}

impl Table<'_> {
    pub fn solution(&self) -> Solution {
        let &Table { method, customers, distances, vehicles } = self;
        if vehicles.iter().any(is_marked) {
            return self.solution_at_home();
        }
        match method {
            sheet::SAVINGS => today::clarke_wright_savings(customers, distances, &vehicles[0]),
            sheet::INSERTION => today::solomon_i1(customers, distances, &vehicles[0]),
            sheet::NEAREST => today::nearest_neighbor(customers, distances, vehicles),
            sheet::NN_TW => today::nearest_neighbor_tw(customers, distances, vehicles),
            sheet::SWEEP => today::sweep(customers, distances, &vehicles[0]),
            _ => unreachable!("refused as 3"),
        }
    }

    /// That of vehicles of which one may rest at home.
    fn solution_at_home(&self) -> Solution {
        use home::constructive::{
            clarke_wright_savings, nearest_neighbor, nearest_neighbor_tw, solomon_i1, sweep,
        };
        let &Table { method, customers, distances, vehicles } = self;
        match method {
            sheet::SAVINGS => clarke_wright_savings(customers, distances, &vehicles[0]),
            sheet::INSERTION => solomon_i1(customers, distances, &vehicles[0]),
            sheet::NEAREST => nearest_neighbor(customers, distances, vehicles),
            sheet::NN_TW => nearest_neighbor_tw(customers, distances, vehicles),
            sheet::SWEEP => sweep(customers, distances, &vehicles[0]),
            _ => unreachable!("refused as 3"),
        }
    }
}

/// A depot mark after the leading rows means nothing, and row 0 is a depot even unmarked.
fn customer(id: usize, row: &Row, depot: bool) -> Option<Customer> {
    let (x, y) = (row.x.into(), row.y.into());
    let mut customer = if depot && row.marks & sheet::DEPOT != 0 {
        Customer::depot_at(id, x, y)
    } else {
        Customer::new(id, x, y, row.demand, row.service)
    };
    if row.marks & sheet::WINDOW != 0 {
        customer = customer.with_time_window(TimeWindow::new(row.ready, row.due)?);
    }
    if row.marks & sheet::PENALTY != 0 {
        customer = customer.with_lateness_penalty(row.penalty)?;
    }
    Some(customer)
}

/// Its maximum duration is its own or the due, whichever is less.
fn vehicle(from: &sheet::Vehicle, due: Option<f64>) -> Vehicle {
    let mut vehicle = Vehicle::new(from.id as usize, from.capacity)
        .with_depot(from.depot as usize)
        .with_cost_per_distance(from.cost_per_distance)
        .with_fixed_cost(from.fixed_cost);
    if from.marks & sheet::MAX_DISTANCE != 0 {
        vehicle = vehicle.with_max_distance(from.max_distance);
    }
    let own = (from.marks & sheet::MAX_DURATION != 0).then_some(from.max_duration);
    if let Some(most) = own.into_iter().chain(due).reduce(f64::min) {
        vehicle = vehicle.with_max_duration(most);
    }
    if from.marks & sheet::REST != 0 {
        let rest = VehicleBreak::new(from.earliest, from.latest, from.rest_duration);
        let at_home = from.marks & sheet::HOME != 0;
        vehicle = vehicle.with_break(if at_home { marked(rest) } else { rest });
    }
    vehicle
}
