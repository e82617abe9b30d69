"""The client for programs that use asyncio."""
from .client import AsyncStore

__all__ = ["AsyncStore"]
