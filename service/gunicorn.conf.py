"""Settings of gunicorn: one engine for each worker, started after the fork."""
import os
from pathlib import Path
from typing import Any

pythonpath = str(Path(__file__).resolve().parent)
wsgi_app = "app:application"
bind = f"127.0.0.1:{os.environ.get('PORT') or 8080}"
workers = int(os.environ.get("WORKERS") or 3)
worker_class = "sync"

# a worker that a slow client holds up is ended after so many seconds; a proxy in front spares the workers that
timeout = 30

# the most that gunicorn takes; a longer constraint is posted
limit_request_line = 8190


def post_worker_init(worker: Any) -> None:
    """Starts the engine before the first request."""
    import app

    app.application.start()
