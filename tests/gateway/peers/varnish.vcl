vcl 4.1;

backend origin {
    .host = "127.0.0.1";
    .port = "@ORIGIN@";
}

# Nothing is stored: it is compared as a gateway.
sub vcl_recv {
    return (pass);
}
