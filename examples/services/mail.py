"""A mail is sent by a service that may be down for half a minute."""
from tenacity import retry, stop_after_attempt, wait_exponential


@retry(wait=wait_exponential(max=20), stop=stop_after_attempt(6))
def send(mail):
    mail.post()
