--
-- PostgreSQL database dump
--

\restrict k9

-- Dumped from database version 15.20
SET statement_timeout = 0;
SET client_encoding = 'UTF8';
SET standard_conforming_strings = on;
SELECT pg_catalog.set_config('search_path', '', false);
SET check_function_bodies = false;

CREATE TYPE public.order_status AS ENUM (
    'new',
    'paid'
);

ALTER TYPE public.order_status OWNER TO postgres;

SET default_tablespace = '';
SET default_table_access_method = heap;

--
-- Name: parcels; Type: TABLE; Schema: public; Owner: postgres
--

CREATE TABLE public.parcels (
    order_id bigint NOT NULL,
    customer_id bigint NOT NULL,
    order_date date DEFAULT CURRENT_DATE NOT NULL,
    status public.order_status DEFAULT 'new'::public.order_status NOT NULL,
    note character varying(255) DEFAULT NULL::character varying,
    tags text[] DEFAULT '{}'::text[] NOT NULL,
    weight double precision,
    shipped timestamp(3) with time zone,
    total numeric(12,2) DEFAULT 0.00 NOT NULL,
    path text COLLATE pg_catalog."C",
    extra jsonb DEFAULT '{}'::jsonb,
    code text DEFAULT E'a\\b\'c' NOT NULL,
    CONSTRAINT orders_total_check CHECK ((total >= (0)::numeric)),
    CONSTRAINT orders_kind CHECK ((note)::text = ANY ((ARRAY['a'::character varying, 'b'::character varying])::text[]))
);

ALTER TABLE public.parcels OWNER TO postgres;
COMMENT ON TABLE public.parcels IS 'Orders; one a row';

CREATE SEQUENCE public.parcels_order_id_seq
    START WITH 1
    INCREMENT BY 1
    NO MINVALUE
    NO MAXVALUE
    CACHE 1;

ALTER SEQUENCE public.parcels_order_id_seq OWNED BY public.parcels.order_id;
ALTER TABLE ONLY public.parcels ALTER COLUMN order_id SET DEFAULT nextval('public.parcels_order_id_seq'::regclass);

ALTER TABLE ONLY public.parcels
    ADD CONSTRAINT orders_pkey PRIMARY KEY (order_id);

ALTER TABLE ONLY public.parcels
    ADD CONSTRAINT orders_path_key UNIQUE NULLS NOT DISTINCT (path, code) INCLUDE (note);

CREATE INDEX orders_date_idx ON public.parcels USING btree (order_date DESC, lower((note)::text)) WHERE (total > 1.5);
CREATE UNIQUE INDEX orders_u ON public.parcels USING btree (code);

ALTER TABLE ONLY public.parcels
    ADD CONSTRAINT orders_customer_fk FOREIGN KEY (customer_id) REFERENCES public.customers(customer_id) ON DELETE SET NULL NOT VALID;

GRANT SELECT ON TABLE public.parcels TO reader;
