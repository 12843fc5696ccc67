# The hub's targets. ACTS=PATH is the program of the service; without it, tests/trial makes one in a few minutes, which proves nothing.
# PYTHON is Debian's: the packages of hub/packages are seen by that one alone.
HUB_ROOT := $(abspath $(dir $(lastword $(MAKEFILE_LIST)))..)
HUB_PYTHON ?= /usr/bin/python3
# (at once, since a makefile that includes this one may give ACTS a value of its own)
HUB_ACTS := $(or $(HUB_ACTS),$(if $(filter environment% command%,$(origin ACTS)),$(abspath $(ACTS)),$(HUB_ROOT)/demo/acts))
HUB_RUN := cd $(HUB_ROOT)/hub && PYTHONPATH=$(HUB_ROOT)/hub ACTS=$(HUB_ACTS)

.PHONY: demo hub-packages hub-test hub-quick hub-typed hub-install

# Starts a service, a hub and a runner in the folder demo/, runs an example to its end, and goes on until Ctrl-C. DEMO='--listen HOST:PORT' and the like are options.
demo: $(HUB_ACTS)
	@mkdir -p $(HUB_ROOT)/demo && echo '*' > $(HUB_ROOT)/demo/.gitignore
	@$(HUB_ROOT)/hub/packages --run --check || { echo 'demo: as root, make hub-packages' >&2; exit 1; }
	@$(HUB_RUN) $(HUB_PYTHON) -m acts_hub up $(HUB_ROOT)/demo/hub --acts $(HUB_ACTS) $(DEMO)

$(HUB_ROOT)/demo/acts:
	@mkdir -p $(HUB_ROOT)/demo && echo '*' > $(HUB_ROOT)/demo/.gitignore
	@echo 'demo: tests/trial makes the program of the service, in a few minutes'
	@$(HUB_ROOT)/tests/trial $@

# Installs Debian's packages, as root, and says which.
hub-packages:
	$(HUB_ROOT)/hub/packages

# All of the hub's tests: a file's tests go on in one process, and of these there are three for two processors, since tests wait a lot. TESTS='tests/NAME.py ..' plays
# some, HUB_JOBS=N with N processes.
HUB_JOBS ?= $(shell echo $$(($$(nproc) * 3 / 2)))
hub-test: $(HUB_ACTS) hub-typed
	$(HUB_RUN) $(HUB_PYTHON) -m pytest -q -rs --durations=12 -n $(HUB_JOBS) --dist loadfile $(TESTS)

# The part that the gate plays: about a minute. Where a package lacks, it says so and leaves the tests out.
hub-quick: $(HUB_ACTS)
	@if $(HUB_ROOT)/hub/packages --check; then $(HUB_RUN) $(HUB_PYTHON) -m pytest -q -rs -n $(HUB_JOBS) --dist loadfile -m quick; else echo 'hub: these packages are not here, so the hub was not tested'; fi

hub-typed:
	cd $(HUB_ROOT)/hub && $(HUB_PYTHON) -m mypy --strict acts_hub acts_runner acts_workflow

# Installs hub and runner below PREFIX (/usr/local), their units into UNITS, and the alerts. The service itself comes by `make install`.
hub-install: PREFIX ?= /usr/local
hub-install: UNITS ?= $(PREFIX)/lib/systemd/system
hub-install:
	install -d $(DESTDIR)$(PREFIX)/lib/acts-hub $(DESTDIR)$(PREFIX)/bin $(DESTDIR)$(UNITS) $(DESTDIR)$(PREFIX)/share/acts/prometheus
	cd $(HUB_ROOT)/hub && tar -c --exclude=__pycache__ --exclude=.mypy_cache acts_hub acts_runner acts_workflow | tar -x --no-same-owner -C $(DESTDIR)$(PREFIX)/lib/acts-hub
	for name in acts-hub:acts_hub acts-runner:acts_runner; do \
		printf '#!/usr/bin/python3 -P\nimport sys\n\nsys.path.insert(0, "%s")\nfrom %s.__main__ import main\nsys.exit(main())\n' $(PREFIX)/lib/acts-hub $${name#*:} \
			> $(DESTDIR)$(PREFIX)/bin/$${name%:*} && chmod 755 $(DESTDIR)$(PREFIX)/bin/$${name%:*} || exit 1; done
	for unit in $(HUB_ROOT)/hub/units/*; do sed 's,/usr/local/,$(PREFIX)/,g' "$$unit" > $(DESTDIR)$(UNITS)/$${unit##*/} || exit 1; done
	install -m 644 $(HUB_ROOT)/hub/prometheus/* $(DESTDIR)$(PREFIX)/share/acts/prometheus
