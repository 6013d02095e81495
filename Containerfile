# A station from the programs that were built: make programs build web, then podman build -t binesunset .
# docs/operating.md says how to run it. The programs need a C library as new as that of the machine that built them.
FROM debian:12-slim
RUN useradd --system --user-group --home-dir /var/lib/cfdp --shell /usr/sbin/nologin cfdp \
    && install -d -o cfdp -g cfdp /var/lib/cfdp /run/cfdp /etc/cfdp
COPY crates/cfdp_server/out/cfdp_server crates/cfdp_put/out/cfdp_put crates/cfdp_ctl/out/cfdp_ctl /usr/local/bin/
COPY crates/cfdp_replay/out/cfdp_replay crates/cfdp_web/out/cfdp_web /usr/local/bin/
ENV CFDP_CONTROL=/run/cfdp/control
USER cfdp
WORKDIR /var/lib/cfdp
VOLUME /var/lib/cfdp
EXPOSE 4556/udp
ENTRYPOINT ["cfdp_server", "/etc/cfdp/station.toml"]
