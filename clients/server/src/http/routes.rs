//! What may be asked for where.

use super::connection::Request;
use super::once::Once;
use super::problem::Problem;
use super::response::Response;
use super::target::{decoded, WHOLE_SERVER};
use super::{changes, documents, facts, page, schemas, transactions};

/// What a path leads to.
#[derive(Debug, PartialEq, Eq)]
enum Route {
    Documents,
    Document(String),
    Schema(String),
    Transactions,
    Mark(String),
    Changes,
    Status,
    Health,
    Figures,
    Problem(String),
    Description,
    Page(&'static page::File),
    WholeServer,
}

const READ: &str = "GET,HEAD,OPTIONS";

impl Route {
    fn of(path: &str) -> Option<Route> {
        if let Some(file) = page::file_at(path) {
            return Some(Route::Page(file));
        }
        Some(match path {
            WHOLE_SERVER => Route::WholeServer,
            "/documents" => Route::Documents,
            "/transactions" => Route::Transactions,
            "/changes" => Route::Changes,
            "/status" => Route::Status,
            "/healthz" => Route::Health,
            "/metrics" => Route::Figures,
            "/openapi.json" => Route::Description,
            _ => {
                let (folder, name) = path.strip_prefix('/')?.split_once('/')?;
                let name = name_of(name)?;
                match folder {
                    "documents" => Route::Document(name),
                    "schemas" => Route::Schema(name),
                    "marks" => Route::Mark(name),
                    "problems" => Route::Problem(name),
                    _ => return None,
                }
            }
        })
    }

    /// The methods that may be asked.
    fn methods(&self) -> &'static str {
        match self {
            Route::Document(_) => "GET,HEAD,PUT,PATCH,DELETE,OPTIONS",
            Route::Schema(_) => "GET,HEAD,PUT,OPTIONS",
            Route::Transactions => "POST,OPTIONS",
            Route::WholeServer => "GET,HEAD,PUT,PATCH,DELETE,POST,OPTIONS",
            _ => READ,
        }
    }
}

/// A name in a path, percent-decoded once. What can't be decoded is no name of a document, and is refused as such.
fn name_of(part: &str) -> Option<String> {
    let is_name = !part.is_empty() && !part.contains(|letter| matches!(letter, '/' | '{' | '}'));
    is_name.then(|| decoded(part).unwrap_or_else(|| part.to_owned()))
}

/// The answer to a request.
pub async fn answered(mut request: Request<'_>) -> Result<Response, Problem> {
    let app = request.app.clone();
    app.guard.check(&request)?;
    if app.guard.is_preflight(&request.head) {
        return Ok(Response::empty(204));
    }
    if request.head.expects_else() {
        return Err(Problem::new(417, "request", "only `100-continue` may be expected"));
    }
    let route = Route::of(&request.path).ok_or_else(|| misplaced(404, "there is nothing at this path"))?;
    let method = request.head.method.clone();
    if !route.methods().split(',').any(|known| known == method) {
        let told = format!("{method} is not for this path, which takes {}", route.methods().replace(',', ", "));
        return Err(misplaced(405, &told).with("Allow", route.methods()));
    }
    if method == "OPTIONS" {
        return Ok(options(&route));
    }
    if !matches!(method.as_str(), "GET" | "HEAD") {
        request.once = Once::of(&request.head)?;
    }
    match route {
        Route::Document(name) => of_document(&mut request, &name).await,
        Route::Schema(name) if method == "PUT" => schemas::put(&mut request, &name).await,
        Route::Transactions => transactions::make_all(&mut request).await,
        route => read(&request, route).await,
    }
}

/// The problem of a request for something that there isn't.
fn misplaced(status: u16, told: &str) -> Problem {
    let advice = "`PUT /documents/NAME` makes a document; `GET /openapi.json` describes all requests";
    Problem { advice: Some(advice.to_owned()), ..Problem::new(status, "request", told) }
}

/// What may be asked.
fn options(route: &Route) -> Response {
    let response = Response::empty(204).with("Allow", route.methods());
    match route {
        Route::Document(_) => response.with("Accept-Patch", documents::ACCEPT_PATCH),
        _ => response,
    }
}

async fn of_document(request: &mut Request<'_>, name: &str) -> Result<Response, Problem> {
    match request.head.method.as_str() {
        "PUT" => documents::put(request, name).await,
        "PATCH" => documents::patch(request, name).await,
        "DELETE" => documents::delete(request, name).await,
        _ => documents::get(request, name).await,
    }
}

/// The answer to a request that changes nothing.
async fn read(request: &Request<'_>, route: Route) -> Result<Response, Problem> {
    match route {
        Route::Documents => documents::names(request).await,
        Route::Document(name) => documents::get(request, &name).await,
        Route::Schema(name) => schemas::get(request, &name).await,
        Route::Mark(key) => transactions::mark(request, &key).await,
        Route::Changes => changes::follow(request).await,
        Route::Status => facts::status(request).await,
        Route::Health => facts::health(request).await,
        Route::Figures => facts::figures(request).await,
        Route::Problem(name) => facts::problem(request, &name),
        Route::Description => page::description(request),
        Route::Page(file) => Ok(file.response()),
        // Their methods are answered before.
        Route::Transactions | Route::WholeServer => Err(Problem::new(405, "request", "this is not read")),
    }
}

#[cfg(test)]
mod tests {
    use super::Route;

    #[test]
    fn paths_lead_to_one_thing() {
        assert_eq!(Route::of("/documents"), Some(Route::Documents));
        assert_eq!(Route::of("/documents/%61%2Db"), Some(Route::Document("a-b".to_owned())));
        assert_eq!(Route::of("/documents/a%2Fb"), Some(Route::Document("a/b".to_owned())));
        assert_eq!(Route::of("/documents/%zz"), Some(Route::Document("%zz".to_owned())));
        for path in ["/documents/", "/documents/a/b", "/x", "/x/y", "/documents/{a}", "//"] {
            assert_eq!(Route::of(path), None, "{path}");
        }
        assert!(matches!(Route::of("/"), Some(Route::Page(_))));
        assert_eq!(Route::of("*"), Some(Route::WholeServer));
    }
}
